/* The owner of a normal mutex locks it again, and waits for ever; another thread continues. */
#include <pthread.h>
#include <stdio.h>

static pthread_mutex_t mutex;

static void *continues(void *unused)
{
    printf("goes on\n");
    return unused;
}

int main(void)
{
    pthread_mutexattr_t attributes;
    pthread_t thread;
    pthread_mutexattr_init(&attributes);
    pthread_mutexattr_settype(&attributes, PTHREAD_MUTEX_NORMAL);
    pthread_mutex_init(&mutex, &attributes);
    pthread_create(&thread, NULL, continues, NULL);
    pthread_mutex_lock(&mutex);
    pthread_mutex_lock(&mutex);
    printf("never\n");
    return 0;
}
