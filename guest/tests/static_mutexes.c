/* Locks 65 static mutexes: the first one too many ends the guest, with a message. */
#include <pthread.h>
#include <stdio.h>

static pthread_mutex_t mutexes[65] = { [0 ... 64] = PTHREAD_MUTEX_INITIALIZER };

int main(void)
{
    for (int k = 0; k < 65; k++) {
        pthread_mutex_lock(&mutexes[k]);
        if (k % 16 == 0)
            printf("%d\n", k);
    }
    return 0;
}
