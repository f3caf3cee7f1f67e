/* The time, sleeps and waits with a time. The output is the same natively. */
#include <errno.h>
#include <pthread.h>
#include <semaphore.h>
#include <stdio.h>
#include <sys/time.h>
#include <time.h>
#include <unistd.h>

static pthread_mutex_t mutex = PTHREAD_MUTEX_INITIALIZER, held = PTHREAD_MUTEX_INITIALIZER;
static pthread_cond_t condition = PTHREAD_COND_INITIALIZER;
static sem_t semaphore;
static int signalled, waiting, woken;

static struct timespec now(void)
{
    struct timespec time;
    clock_gettime(CLOCK_REALTIME, &time);
    return time;
}

static struct timespec after(struct timespec time, int milliseconds)
{
    time.tv_sec += milliseconds / 1000;
    time.tv_nsec += milliseconds % 1000 * 1000000;
    if (time.tv_nsec >= 1000000000) {
        time.tv_nsec -= 1000000000;
        time.tv_sec++;
    }
    return time;
}

static int before(struct timespec one, struct timespec other)
{
    return one.tv_sec < other.tv_sec || (one.tv_sec == other.tv_sec && one.tv_nsec < other.tv_nsec);
}

static void report(const char *what, int yes)
{
    printf("%s: %s\n", what, yes ? "yes" : "no");
}

static void *later(void *argument)
{
    usleep(200000);
    pthread_mutex_lock(&mutex);
    signalled = 1;
    pthread_cond_signal(&condition);
    pthread_mutex_unlock(&mutex);
    usleep(200000);
    sem_post(&semaphore);
    return argument;
}

static void *waits(void *argument)
{
    pthread_mutex_lock(&mutex);
    struct timespec end = after(now(), 8000);
    waiting++;
    while (!signalled && pthread_cond_timedwait(&condition, &mutex, &end) == 0)
        woken++;
    pthread_mutex_unlock(&mutex);
    return argument;
}

static void *waits_for_ever(void *argument)
{
    pthread_mutex_lock(&mutex);
    waiting++;
    while (!signalled)
        pthread_cond_wait(&condition, &mutex);
    woken++;
    pthread_mutex_unlock(&mutex);
    return argument;
}

static void *keeps(void *argument)
{
    pthread_mutex_lock(&held);
    usleep(300000);
    pthread_mutex_unlock(&held);
    return argument;
}

static void ticks(void)
{
    struct timespec begin = now(), length = { 0, 30000000 }, end;
    nanosleep(&length, NULL);
    end = now();
    report("a sleep takes its time", !before(end, after(begin, 30)));
    begin = after(now(), 50);
    report("a sleep until then",
           clock_nanosleep(CLOCK_REALTIME, TIMER_ABSTIME, &begin, NULL) == 0 && !before(now(), begin));
    length.tv_nsec = 1000000000;
    report("no time to sleep", nanosleep(&length, NULL) == -1 && errno == EINVAL);
    struct timeval one, other;
    gettimeofday(&one, NULL);
    usleep(2000);
    gettimeofday(&other, NULL);
    report("gettimeofday goes on", other.tv_sec > one.tv_sec || other.tv_usec > one.tv_usec);
    time_t seconds = time(NULL);
    sleep(1);
    report("time goes on", time(&seconds) == seconds && seconds > one.tv_sec);
    report("clock doesn't go back", clock() <= clock());
}

static void waits_alone(void)
{
    struct timespec end = after(now(), 40), none = { 0, -1 };
    pthread_mutex_lock(&mutex);
    report("nobody signals", pthread_cond_timedwait(&condition, &mutex, &end) == ETIMEDOUT && !before(now(), end));
    report("nobody signals, and it is over", pthread_cond_timedwait(&condition, &mutex, &end) == ETIMEDOUT);
    report("no time to wait for", pthread_cond_timedwait(&condition, &mutex, &none) == EINVAL);
    report("the mutex is held", pthread_mutex_unlock(&mutex) == 0);
    end = after(now(), 40);
    report("nobody posts", sem_timedwait(&semaphore, &end) == -1 && errno == ETIMEDOUT && !before(now(), end));
    report("no time", sem_timedwait(&semaphore, &none) == -1 && errno == EINVAL);
    sem_post(&semaphore);
    report("somebody posted", sem_timedwait(&semaphore, &end) == 0);
}

static void waits_for_others(void)
{
    pthread_t thread;
    struct timespec end = after(now(), 5000);
    pthread_create(&thread, NULL, later, NULL);
    pthread_mutex_lock(&mutex);
    int result = 0;
    while (!signalled && result == 0)
        result = pthread_cond_timedwait(&condition, &mutex, &end);
    pthread_mutex_unlock(&mutex);
    report("somebody signals", result == 0 && signalled);
    report("somebody posts", sem_timedwait(&semaphore, &end) == 0);
    pthread_join(thread, NULL);
    report("it isn't over", before(now(), end));
    pthread_create(&thread, NULL, keeps, NULL);
    usleep(100000);
    end = after(now(), 50);
    report("a mutex that another has", pthread_mutex_timedlock(&held, &end) == ETIMEDOUT);
    end = after(now(), 5000);
    report("until it is free", pthread_mutex_timedlock(&held, &end) == 0);
    pthread_mutex_unlock(&held);
    pthread_join(thread, NULL);
}

static void wakes_all(void)
{
    pthread_t threads[4];
    signalled = woken = 0;
    for (int k = 0; k < 4; k++)
        pthread_create(&threads[k], NULL, k < 2 ? waits : waits_for_ever, NULL);
    for (int there = 0; there < 4;) {
        usleep(10000);
        pthread_mutex_lock(&mutex);
        there = waiting;
        pthread_mutex_unlock(&mutex);
    }
    pthread_mutex_lock(&mutex);
    signalled = 1;
    pthread_cond_broadcast(&condition);
    pthread_mutex_unlock(&mutex);
    for (int k = 0; k < 4; k++)
        pthread_join(threads[k], NULL);
    report("a broadcast wakes all", woken == 4);
}

int main(void)
{
    sem_init(&semaphore, 0, 0);
    ticks();
    waits_alone();
    waits_for_others();
    wakes_all();
    return 0;
}
