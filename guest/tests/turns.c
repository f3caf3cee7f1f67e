/* Threads that print in turn, ordered by a mutex and a condition, by semaphores, and by a barrier. */
#include <pthread.h>
#include <semaphore.h>
#include <stdint.h>
#include <stdio.h>

enum { THREADS = 5, TURNS = 40 };

static pthread_mutex_t mutex = PTHREAD_MUTEX_INITIALIZER;
static pthread_cond_t changed = PTHREAD_COND_INITIALIZER;
static pthread_barrier_t barrier;
static sem_t may[THREADS];
static unsigned turn;

static void by_condition(unsigned me)
{
    for (unsigned k = 0; k < TURNS; k++) {
        pthread_mutex_lock(&mutex);
        while (turn % THREADS != me)
            pthread_cond_wait(&changed, &mutex);
        printf("condition %u %u", me, k);
        printf(" turn %u\n", turn++);
        pthread_cond_broadcast(&changed);
        pthread_mutex_unlock(&mutex);
    }
}

static void by_semaphore(unsigned me)
{
    for (unsigned k = 0; k < TURNS; k++) {
        sem_wait(&may[me]);
        printf("semaphore %u %u\n", me, k);
        if (k % 7 == 0)
            fflush(stdout);
        sem_post(&may[me + 1 == THREADS ? 0 : me + 1]);
    }
}

static void by_barrier(unsigned me)
{
    for (unsigned k = 0; k < THREADS; k++) {
        if (k == me)
            printf("barrier %u\n", me);
        pthread_barrier_wait(&barrier);
    }
}

static void *work(void *argument)
{
    unsigned me = (unsigned)(uintptr_t)argument;
    by_condition(me);
    pthread_barrier_wait(&barrier);
    by_semaphore(me);
    pthread_barrier_wait(&barrier);
    by_barrier(me);
    return NULL;
}

int main(void)
{
    pthread_t thread[THREADS];
    pthread_barrier_init(&barrier, NULL, THREADS);
    for (unsigned k = 0; k < THREADS; k++)
        sem_init(&may[k], 0, k == 0);
    for (uintptr_t k = 0; k < THREADS; k++)
        pthread_create(&thread[k], NULL, work, (void *)k);
    for (int k = 0; k < THREADS; k++)
        pthread_join(thread[k], NULL);
    printf("turns %u\n", turn);
    return 0;
}
