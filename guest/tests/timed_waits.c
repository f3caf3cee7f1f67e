/* Waits with a time, each with a result that doesn't depend on which thread runs first: no thread comes, one came
   before, or the wait is repeated until one comes. */
#include <errno.h>
#include <pthread.h>
#include <semaphore.h>
#include <stdio.h>
#include <time.h>

enum { THREADS = 4, ITEMS = 20, SHORT = 30 /* milliseconds */ };

/* A thread's own data; each result is 1 if it is right. */
static struct own {
    pthread_mutex_t mutex;
    pthread_cond_t condition;
    pthread_rwlock_t lock;
    sem_t none, some;
    int nobody_signals, nobody_posts, nobody_unlocks, nobody_reads_no_more, somebody_posted, it_is_free, no_time;
} own[THREADS];

static pthread_mutex_t held = PTHREAD_MUTEX_INITIALIZER, mutex = PTHREAD_MUTEX_INITIALIZER;
static pthread_cond_t condition = PTHREAD_COND_INITIALIZER;
static pthread_rwlock_t read_by_main = PTHREAD_RWLOCK_INITIALIZER, lock = PTHREAD_RWLOCK_INITIALIZER;
static sem_t items;
static int made, taken, waiting, woken, signalled, sum, twice;

static struct timespec after(int milliseconds)
{
    struct timespec time;
    clock_gettime(CLOCK_REALTIME, &time);
    time.tv_nsec += milliseconds * 1000000;
    if (time.tv_nsec >= 1000000000) {
        time.tv_nsec -= 1000000000;
        time.tv_sec++;
    }
    return time;
}

static int has_passed(struct timespec time)
{
    struct timespec now = after(0);
    return now.tv_sec > time.tv_sec || (now.tv_sec == time.tv_sec && now.tv_nsec >= time.tv_nsec);
}

static void with_each(void *(*function)(void *))
{
    pthread_t threads[THREADS];
    for (int k = 0; k < THREADS; k++)
        pthread_create(&threads[k], NULL, function, &own[k]);
    for (int k = 0; k < THREADS; k++)
        pthread_join(threads[k], NULL);
}

/* ---------------------------------------------------------------------------------------------- each for itself ---- */

static void *alone(void *argument)
{
    struct own *own = argument;
    struct timespec none = { 0, 1000000000 }, end = after(SHORT);
    pthread_mutex_lock(&own->mutex);
    own->nobody_signals = pthread_cond_timedwait(&own->condition, &own->mutex, &end) == ETIMEDOUT && has_passed(end);
    own->nobody_signals &= pthread_mutex_unlock(&own->mutex) == 0;
    end = after(SHORT);
    own->nobody_posts = sem_timedwait(&own->none, &end) == -1 && errno == ETIMEDOUT && has_passed(end);
    end = after(SHORT);
    own->nobody_unlocks = pthread_mutex_timedlock(&held, &end) == ETIMEDOUT && has_passed(end);
    end = after(SHORT);
    own->nobody_reads_no_more = pthread_rwlock_timedwrlock(&read_by_main, &end) == ETIMEDOUT && has_passed(end);
    own->no_time = pthread_rwlock_timedwrlock(&read_by_main, &none) == EINVAL;
    end = after(SHORT);
    own->somebody_posted = sem_timedwait(&own->some, &end) == 0;
    own->it_is_free = pthread_mutex_timedlock(&own->mutex, &end) == 0 && pthread_mutex_unlock(&own->mutex) == 0;
    own->it_is_free &= pthread_rwlock_timedwrlock(&own->lock, &end) == 0 && pthread_rwlock_unlock(&own->lock) == 0;
    return NULL;
}

static void report(const char *what, size_t offset)
{
    printf("%s:", what);
    for (int k = 0; k < THREADS; k++)
        printf(" %s", *(const int *)((const char *)&own[k] + offset) ? "yes" : "no");
    printf("\n");
}

#define TELL(what, result) report(what, (size_t)((const char *)&own[0].result - (const char *)&own[0]))

static void each_for_itself(void)
{
    for (int k = 0; k < THREADS; k++) {
        pthread_mutex_init(&own[k].mutex, NULL);
        pthread_cond_init(&own[k].condition, NULL);
        pthread_rwlock_init(&own[k].lock, NULL);
        sem_init(&own[k].none, 0, 0);
        sem_init(&own[k].some, 0, 1);
    }
    pthread_mutex_lock(&held);
    pthread_rwlock_rdlock(&read_by_main);
    with_each(alone);
    pthread_rwlock_unlock(&read_by_main);
    pthread_mutex_unlock(&held);
    TELL("nobody signals", nobody_signals);
    TELL("nobody posts", nobody_posts);
    TELL("nobody unlocks", nobody_unlocks);
    TELL("a reader stays", nobody_reads_no_more);
    TELL("no time", no_time);
    TELL("somebody has posted", somebody_posted);
    TELL("it is free", it_is_free);
}

/* ---------------------------------------------------------------------------------------------- until it comes ---- */

/* Half of them produce items, and half consume as many. */
static void *relays(void *argument)
{
    struct timespec end;
    for (int k = 0; k < ITEMS; k++) {
        pthread_mutex_lock(&mutex);
        if ((struct own *)argument - own < THREADS / 2) {
            made++;
            pthread_cond_signal(&condition);
            sem_post(&items);
        } else {
            while (made == taken) {
                end = after(SHORT);
                pthread_cond_timedwait(&condition, &mutex, &end);
            }
            taken++;
        }
        pthread_mutex_unlock(&mutex);
    }
    return NULL;
}

static void *takes(void *unused)
{
    for (int k = 0; k < 2 * ITEMS / THREADS; k++)
        for (int result = -1; result != 0;) {
            struct timespec end = after(SHORT);
            result = sem_timedwait(&items, &end);
        }
    return unused;
}

static void *adds(void *unused)
{
    for (int k = 0; k < ITEMS; k++) {
        struct timespec end = after(SHORT);
        while (pthread_mutex_timedlock(&mutex, &end) != 0)
            end = after(SHORT);
        sum++;
        pthread_mutex_unlock(&mutex);
    }
    return unused;
}

/* Half of them write, and half read. */
static void *writes(void *argument)
{
    for (int k = 0; k < ITEMS; k++) {
        struct timespec end = after(SHORT);
        if ((struct own *)argument - own < THREADS / 2) {
            while (pthread_rwlock_timedwrlock(&lock, &end) != 0)
                end = after(SHORT);
            sum++;
            twice += 2;
        } else {
            pthread_rwlock_rdlock(&lock);
            if (twice != 2 * sum)
                printf("read in the middle of a write\n");
        }
        pthread_rwlock_unlock(&lock);
    }
    return NULL;
}

/* Half of them wait with a time. */
static void *waits(void *argument)
{
    pthread_mutex_lock(&mutex);
    waiting++;
    while (!signalled) {
        struct timespec end = after(SHORT);
        if ((struct own *)argument - own < THREADS / 2)
            pthread_cond_timedwait(&condition, &mutex, &end);
        else
            pthread_cond_wait(&condition, &mutex);
    }
    woken++;
    pthread_mutex_unlock(&mutex);
    return NULL;
}

static void *broadcasts(void *unused)
{
    for (int all = 0; !all;) {
        struct timespec moment = { 0, 10000000 };
        nanosleep(&moment, NULL);
        pthread_mutex_lock(&mutex);
        if ((all = waiting == THREADS)) {
            signalled = 1;
            pthread_cond_broadcast(&condition);
        }
        pthread_mutex_unlock(&mutex);
    }
    return unused;
}

static void until_it_comes(void)
{
    pthread_t thread;
    sem_init(&items, 0, 0);
    with_each(relays);
    printf("%d made, %d taken\n", made, taken);
    with_each(takes);
    printf("all posts are taken: %s\n", sem_trywait(&items) == -1 && errno == EAGAIN ? "yes" : "no");
    with_each(adds);
    printf("the sum is %d\n", sum);
    sum = 0;
    with_each(writes);
    printf("the sum is %d, and twice that %d\n", sum, twice);
    pthread_create(&thread, NULL, broadcasts, NULL);
    with_each(waits);
    pthread_join(thread, NULL);
    printf("%d of %d are woken\n", woken, waiting);
}

int main(void)
{
    each_for_itself();
    until_it_comes();
    return 0;
}
