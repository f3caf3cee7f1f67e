/* Threads that are never joined: created detached, or detached by a thread. The last thread's end ends the run. */
#include <errno.h>
#include <pthread.h>
#include <semaphore.h>
#include <stdio.h>

static sem_t done, go;
static pthread_mutex_t mutex = PTHREAD_MUTEX_INITIALIZER;
static int count;

static void report(const char *what, int result)
{
    printf("%s: %s\n", what, result == 0 ? "0" : result == EINVAL ? "EINVAL" : result == ESRCH ? "ESRCH" : "another");
}

static void *adds(void *value)
{
    pthread_mutex_lock(&mutex);
    count += *(int *)value;
    pthread_mutex_unlock(&mutex);
    sem_post(&done);
    sem_wait(&go);
    return NULL;
}

static void *detaches(void *value)
{
    report("by itself", pthread_detach(pthread_self()));
    return adds(value);
}

static void *last(void *unused)
{
    sem_wait(&done);
    printf("the last\n");
    return unused;
}

int main(void)
{
    static int one = 1, ten = 10, hundred = 100, thousand = 1000;
    pthread_attr_t attributes;
    pthread_t threads[5];
    int state = -1;
    sem_init(&done, 0, 0);
    sem_init(&go, 0, 0);
    pthread_attr_init(&attributes);
    pthread_attr_getdetachstate(&attributes, &state);
    printf("joinable at first: %d\n", state == PTHREAD_CREATE_JOINABLE);
    report("detached", pthread_attr_setdetachstate(&attributes, PTHREAD_CREATE_DETACHED));
    pthread_attr_getdetachstate(&attributes, &state);
    printf("it is so: %d\n", state == PTHREAD_CREATE_DETACHED);
    report("create", pthread_create(&threads[0], &attributes, adds, &one));
    sem_wait(&done);
    report("join", pthread_join(threads[0], NULL));
    report("detach", pthread_detach(threads[0]));
    report("create", pthread_create(&threads[1], NULL, adds, &ten));
    report("detach", pthread_detach(threads[1]));
    sem_wait(&done);
    report("join", pthread_join(threads[1], NULL));
    int created = pthread_create(&threads[2], NULL, detaches, &hundred);
    sem_wait(&done);
    report("create", created);
    report("join", pthread_join(threads[2], NULL));
    report("detach again", pthread_detach(threads[2]));
    report("create", pthread_create(&threads[3], NULL, adds, &thousand));
    sem_wait(&done);
    for (int k = 0; k < 4; k++)
        sem_post(&go);
    report("join", pthread_join(threads[3], NULL));
    printf("count %d\n", count);
    pthread_create(&threads[4], &attributes, last, NULL);
    sem_post(&done);
    pthread_exit(NULL);
}
