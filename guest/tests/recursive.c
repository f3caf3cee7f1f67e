/* Recursive, error-checking and normal mutexes: which thread may lock and unlock them again, and a condition with one
   that was locked once. */
#define _GNU_SOURCE
#include <errno.h>
#include <pthread.h>
#include <stdio.h>

static pthread_mutex_t mutex, fixed = PTHREAD_RECURSIVE_MUTEX_INITIALIZER_NP;
static pthread_mutex_t checked = PTHREAD_ERRORCHECK_MUTEX_INITIALIZER_NP, plain = PTHREAD_MUTEX_INITIALIZER;
static pthread_cond_t condition = PTHREAD_COND_INITIALIZER;
static int ready, sum;

static const char *name(int result)
{
    return result == 0 ? "0" : result == EPERM ? "EPERM" : result == EBUSY ? "EBUSY" : result == EDEADLK ? "EDEADLK"
                                                                                   : "another";
}

static void report(const char *what, int result)
{
    printf("%s: %s\n", what, name(result));
}

static void *other(void *of)
{
    report("tried by another", pthread_mutex_trylock(of));
    report("unlocked by another", pthread_mutex_unlock(of));
    return NULL;
}

static void trylock_in_thread(pthread_mutex_t *of)
{
    pthread_t thread;
    pthread_create(&thread, NULL, other, of);
    pthread_join(thread, NULL);
}

static void again(pthread_mutex_t *of)
{
    report("lock", pthread_mutex_lock(of));
    report("lock again", pthread_mutex_lock(of));
    report("tried", pthread_mutex_trylock(of));
    trylock_in_thread(of);
    report("unlock", pthread_mutex_unlock(of));
    report("unlock", pthread_mutex_unlock(of));
    trylock_in_thread(of);
    report("unlock", pthread_mutex_unlock(of));
    report("unlock once more", pthread_mutex_unlock(of));
    pthread_t thread;
    pthread_create(&thread, NULL, (void *(*)(void *))pthread_mutex_lock, of);
    pthread_join(thread, NULL);
    report("destroyed while another has it", pthread_mutex_destroy(of));
}

static void deep(int levels)
{
    pthread_mutex_lock(&fixed);
    sum++;
    if (levels > 1)
        deep(levels - 1);
    pthread_mutex_unlock(&fixed);
}

static void *adds(void *unused)
{
    for (int k = 0; k < 5; k++)
        deep(20);
    return unused;
}

static void *waits(void *unused)
{
    pthread_mutex_lock(&fixed);
    while (!ready)
        pthread_cond_wait(&condition, &fixed);
    report("it is the waiter's", pthread_mutex_lock(&fixed));
    pthread_mutex_unlock(&fixed);
    report("given up", pthread_mutex_unlock(&fixed));
    return unused;
}

int main(void)
{
    pthread_mutexattr_t attributes;
    pthread_t threads[3];
    int type = -1;
    pthread_mutexattr_init(&attributes);
    report("recursive", pthread_mutexattr_settype(&attributes, PTHREAD_MUTEX_RECURSIVE));
    pthread_mutexattr_gettype(&attributes, &type);
    printf("it is so: %d\n", type == PTHREAD_MUTEX_RECURSIVE);
    report("inherited priority", pthread_mutexattr_setprotocol(&attributes, PTHREAD_PRIO_INHERIT));
    pthread_mutexattr_getprotocol(&attributes, &type);
    printf("it is so: %d\n", type == PTHREAD_PRIO_INHERIT);
    report("protected priority", pthread_mutexattr_setprotocol(&attributes, PTHREAD_PRIO_PROTECT));
    printf("no such ceiling: %d\n", pthread_mutexattr_setprioceiling(&attributes, 100) == EINVAL);
    report("a ceiling", pthread_mutexattr_setprioceiling(&attributes, 7));
    pthread_mutexattr_getprioceiling(&attributes, &type);
    printf("it is so: %d\n", type);
    pthread_mutexattr_setprotocol(&attributes, PTHREAD_PRIO_NONE);
    pthread_mutex_init(&mutex, &attributes);
    again(&mutex);
    report("lock", pthread_mutex_lock(&checked));
    report("lock again", pthread_mutex_lock(&checked));
    report("tried", pthread_mutex_trylock(&checked));
    trylock_in_thread(&checked);
    report("unlock", pthread_mutex_unlock(&checked));
    report("unlock once more", pthread_mutex_unlock(&checked));
    report("lock", pthread_mutex_lock(&plain));
    report("tried", pthread_mutex_trylock(&plain));
    report("unlock", pthread_mutex_unlock(&plain));
    for (int k = 0; k < 3; k++)
        pthread_create(&threads[k], NULL, adds, NULL);
    for (int k = 0; k < 3; k++)
        pthread_join(threads[k], NULL);
    printf("sum %d\n", sum);
    pthread_create(&threads[0], NULL, waits, NULL);
    pthread_mutex_lock(&fixed);
    ready = 1;
    report("signal", pthread_cond_signal(&condition));
    pthread_mutex_unlock(&fixed);
    pthread_join(threads[0], NULL);
    report("destroyed", pthread_mutex_destroy(&fixed));
    return 0;
}
