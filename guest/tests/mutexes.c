/* As many mutexes, conditions, semaphores and barriers as there can be; then one more of each; and again after one was
   destroyed. */
#include <errno.h>
#include <pthread.h>
#include <semaphore.h>
#include <stdio.h>

static pthread_mutex_t mutexes[66];
static pthread_cond_t conditions[66];
static pthread_barrier_t barriers[66];
static sem_t semaphores[66];

static int mutex(int k)
{
    return pthread_mutex_init(&mutexes[k], NULL);
}

static int condition(int k)
{
    return pthread_cond_init(&conditions[k], NULL);
}

static int barrier(int k)
{
    return pthread_barrier_init(&barriers[k], NULL, 2);
}

static int semaphore(int k)
{
    return sem_init(&semaphores[k], 0, 1) == 0 ? 0 : errno == ENOSPC ? EAGAIN : -1;
}

static void count(const char *what, int (*init)(int))
{
    int made = 0, result;
    while (made < 66 && (result = init(made)) == 0)
        made++;
    printf("%s: %d, then %s\n", what, made, result == EAGAIN ? "no more" : "something else");
}

int main(void)
{
    count("mutexes", mutex);
    count("conditions", condition);
    count("barriers", barrier);
    count("semaphores", semaphore);
    pthread_mutex_destroy(&mutexes[5]);
    pthread_cond_destroy(&conditions[6]);
    pthread_barrier_destroy(&barriers[7]);
    sem_destroy(&semaphores[8]);
    printf("after one of each was destroyed: %d %d %d %d\n", mutex(64), condition(64), barrier(64), semaphore(64));
    pthread_mutex_lock(&mutexes[64]);
    pthread_mutex_unlock(&mutexes[64]);
    sem_wait(&semaphores[64]);
    printf("of its value nothing is left: %d\n", sem_trywait(&semaphores[64]));
    return 0;
}
