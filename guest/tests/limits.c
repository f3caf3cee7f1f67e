/* Results that POSIX leaves open, and limits that Linux doesn't have: each line is as pthread.h specifies. */
#include <errno.h>
#include <pthread.h>
#include <sched.h>
#include <semaphore.h>
#include <stdio.h>

static pthread_mutex_t mutex = PTHREAD_MUTEX_INITIALIZER, other = PTHREAD_MUTEX_INITIALIZER;
static pthread_cond_t condition = PTHREAD_COND_INITIALIZER;
static pthread_barrier_t barrier;
static sem_t semaphore;
static pthread_spinlock_t spin;
static pthread_t sleeper;

static const char *name(int result)
{
    return result == 0         ? "0"
           : result == EPERM   ? "EPERM"
           : result == ESRCH   ? "ESRCH"
           : result == EAGAIN  ? "EAGAIN"
           : result == EBUSY   ? "EBUSY"
           : result == EINVAL  ? "EINVAL"
           : result == EDEADLK ? "EDEADLK"
           : result == ENOTSUP ? "ENOTSUP"
                               : "another";
}

static void report(const char *what, int result)
{
    printf("%s: %s\n", what, name(result));
}

static void *sleeps(void *unused)
{
    errno = 77;
    sem_wait(&semaphore);
    printf("errno is the thread's own: %d\n", errno == 77);
    return unused;
}

static void *joins(void *unused)
{
    pthread_join(sleeper, NULL);
    return unused;
}

static void *unlocks(void *unused)
{
    report("spin lock unlocked by another", pthread_spin_unlock(&spin));
    return unused;
}

static void *meets(void *unused)
{
    pthread_barrier_wait(&barrier);
    return unused;
}

static void *waits(void *unused)
{
    pthread_mutex_lock(&mutex);
    pthread_cond_wait(&condition, &mutex);
    pthread_mutex_unlock(&mutex);
    return unused;
}

/* until each of the others waits */
static void yield_to_waiters(void)
{
    for (int k = 0; k < 10; k++)
        sched_yield();
}

static void attributes(void)
{
    pthread_t thread;
    pthread_spin_init(&spin, 0);
    pthread_spin_lock(&spin);
    report("spin lock locked again", pthread_spin_lock(&spin));
    pthread_create(&thread, NULL, unlocks, NULL);
    pthread_join(thread, NULL);
}

static void while_some_wait(void)
{
    pthread_t one, two, three;
    errno = 3;
    sem_init(&semaphore, 1, 0);
    pthread_create(&sleeper, NULL, sleeps, NULL);
    pthread_create(&one, NULL, joins, NULL);
    yield_to_waiters();
    report("join of who is joined", pthread_join(sleeper, NULL));
    report("semaphore destroyed while one waits", sem_destroy(&semaphore) == 0 ? 0 : errno);
    sem_post(&semaphore);
    pthread_join(one, NULL);
    report("join of who was joined", pthread_join(sleeper, NULL));
    pthread_barrier_init(&barrier, NULL, 2);
    pthread_create(&two, NULL, meets, NULL);
    yield_to_waiters();
    report("barrier made anew while one waits", pthread_barrier_init(&barrier, NULL, 3));
    report("barrier destroyed while one waits", pthread_barrier_destroy(&barrier));
    meets(NULL);
    pthread_join(two, NULL);
    pthread_create(&three, NULL, waits, NULL);
    yield_to_waiters();
    pthread_mutex_lock(&other);
    report("condition with another mutex", pthread_cond_wait(&condition, &other));
    report("condition without the mutex", pthread_cond_wait(&condition, &mutex));
    pthread_cond_signal(&condition);
    pthread_join(three, NULL);
}

int main(void)
{
    pthread_t thread;
    int threads = 1, result;
    attributes();
    report("join of nobody", pthread_join(5, NULL));
    report("barrier of 32", pthread_barrier_init(&barrier, NULL, 32));
    report("barrier of 33", pthread_barrier_init(&barrier, NULL, 33));
    pthread_barrier_destroy(&barrier);
    while_some_wait();
    threads += 5;
    pthread_barrier_init(&barrier, NULL, 1);
    while ((result = pthread_create(&thread, NULL, meets, NULL)) == 0) {
        pthread_join(thread, NULL);
        threads++;
    }
    printf("threads %d, then %s\n", threads, name(result));
    return 0;
}
