/* Read locks that are tried, or waited for with a time. */
#define _GNU_SOURCE
#include <errno.h>
#include <pthread.h>
#include <sched.h>
#include <semaphore.h>
#include <stdio.h>
#include <time.h>

enum { THREADS = 4, TIMES = 50 };

static pthread_rwlock_t lock = PTHREAD_RWLOCK_INITIALIZER, counted;
static sem_t go, done;
static int counter, halves[2];

static const char *name(int result)
{
    return result == 0 ? "0" : result == EBUSY ? "EBUSY" : result == EDEADLK ? "EDEADLK" : result == EINVAL ? "EINVAL"
           : result == ETIMEDOUT ? "ETIMEDOUT" : "another";
}

static void report(const char *what, int result)
{
    printf("%s: %s\n", what, name(result));
}

static struct timespec short_deadline(void)
{
    struct timespec time;
    clock_gettime(CLOCK_REALTIME, &time);
    time.tv_nsec += 50000000;
    if (time.tv_nsec >= 1000000000) {
        time.tv_nsec -= 1000000000;
        time.tv_sec++;
    }
    return time;
}

static void *other(void *unused)
{
    struct timespec none = { 0, 1000000000 }, end;
    sem_wait(&go);
    report("another reads: read", pthread_rwlock_tryrdlock(&lock));
    report("give up", pthread_rwlock_unlock(&lock));
    report("write", pthread_rwlock_trywrlock(&lock));
    sem_post(&done);
    sem_wait(&go);
    report("another writes: read", pthread_rwlock_tryrdlock(&lock));
    report("write", pthread_rwlock_trywrlock(&lock));
    end = short_deadline();
    report("read up to a time", pthread_rwlock_timedrdlock(&lock, &end));
    end = short_deadline();
    report("read by a clock", pthread_rwlock_clockrdlock(&lock, CLOCK_REALTIME, &end));
    report("no time", pthread_rwlock_timedrdlock(&lock, &none));
    sem_post(&done);
    sem_wait(&go);
    report("nobody holds it: write", pthread_rwlock_trywrlock(&lock));
    sem_post(&done);
    return unused;
}

static void pass_lock(void)
{
    sem_post(&go);
    sem_wait(&done);
}

static void *counts(void *unused)
{
    for (int time = 0; time < TIMES; time++) {
        pthread_rwlock_wrlock(&counted);
        counter++;
        halves[0]++;
        halves[1]--;
        pthread_rwlock_unlock(&counted);
        while (pthread_rwlock_tryrdlock(&counted) != 0)
            sched_yield();
        if (halves[0] + halves[1] != 0)
            printf("torn\n");
        pthread_rwlock_unlock(&counted);
        pthread_rwlock_rdlock(&counted);
        if (halves[0] + halves[1] != 0)
            printf("torn\n");
        pthread_rwlock_unlock(&counted);
    }
    return unused;
}

int main(void)
{
    pthread_t threads[THREADS];
    struct timespec end;
    sem_init(&go, 0, 0);
    sem_init(&done, 0, 0);
    pthread_create(&threads[0], NULL, other, NULL);
    report("read", pthread_rwlock_tryrdlock(&lock));
    report("read again", pthread_rwlock_tryrdlock(&lock));
    report("and again", pthread_rwlock_rdlock(&lock));
    report("write", pthread_rwlock_trywrlock(&lock));
    pass_lock();
    for (int k = 0; k < 3; k++)
        report("give up", pthread_rwlock_unlock(&lock));
    report("write", pthread_rwlock_trywrlock(&lock));
    report("read what is written", pthread_rwlock_tryrdlock(&lock));
    report("read it all the same", pthread_rwlock_rdlock(&lock));
    end = short_deadline();
    report("read it up to a time", pthread_rwlock_timedrdlock(&lock, &end));
    report("write it", pthread_rwlock_wrlock(&lock));
    pass_lock();
    report("give up", pthread_rwlock_unlock(&lock));
    end = short_deadline();
    report("read up to a time", pthread_rwlock_timedrdlock(&lock, &end));
    report("give up", pthread_rwlock_unlock(&lock));
    pass_lock();
    pthread_join(threads[0], NULL);
    pthread_rwlock_init(&counted, NULL);
    for (int k = 0; k < THREADS; k++)
        pthread_create(&threads[k], NULL, counts, NULL);
    for (int k = 0; k < THREADS; k++)
        pthread_join(threads[k], NULL);
    printf("counted %d\n", counter);
    report("destroy", pthread_rwlock_destroy(&counted));
    return 0;
}
