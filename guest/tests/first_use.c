/* Static mutexes and a once that several threads use for the first time at the same time. */
#include <pthread.h>
#include <stdio.h>

enum { MUTEXES = 20, THREADS = 6 };

static pthread_mutex_t mutexes[MUTEXES];
static pthread_mutex_t another = PTHREAD_MUTEX_INITIALIZER;
static pthread_once_t once = PTHREAD_ONCE_INIT;
static unsigned counts[MUTEXES], made, seen;

static void make(void)
{
    made++;
}

static void *count(void *unused)
{
    pthread_once(&once, make);
    pthread_mutex_lock(&another);
    seen += made;
    pthread_mutex_unlock(&another);
    for (unsigned k = 0; k < MUTEXES; k++) {
        pthread_mutex_lock(&mutexes[k]);
        counts[k]++;
        pthread_mutex_unlock(&mutexes[k]);
    }
    return unused;
}

int main(void)
{
    pthread_t thread[THREADS];
    unsigned sum = 0;
    for (int k = 0; k < THREADS; k++)
        pthread_create(&thread[k], NULL, count, NULL);
    for (int k = 0; k < THREADS; k++)
        pthread_join(thread[k], NULL);
    for (unsigned k = 0; k < MUTEXES; k++)
        sum += counts[k];
    printf("made %u, seen by %u, sum %u\n", made, seen, sum);
    return 0;
}
