/* Waits with a time, for `guest/build --time counted`: the thread yields until it has what it waits for, or until the
   time has passed.

   The machine's conditions wake only threads that wait in the machine. So a thread that waits for one with a time is in
   a list, and a signal looks there first; guest/build has the linker redirect each signal and broadcast here. */
#include <pthread.h>
#include <semaphore.h>
#include "counted.h"

static struct IT_PAGE_ALIGNED {
    unsigned count;
    struct waiter { pthread_cond_t *condition; int *woken; } waiter[IT_THREADS]; /* in order of arrival */
} wait_list;
static _Thread_local int woken;

static void remove_waiter(unsigned index)
{
    for (wait_list.count--; index < wait_list.count; index++)
        wait_list.waiter[index] = wait_list.waiter[index + 1];
}

/* Wakes at most this many threads of the list. Returns whether it woke any. */
static int wake(const pthread_cond_t *condition, unsigned max)
{
    unsigned found = 0;
    if (it_self.io_pending)
        it_finish_io();
    if (wait_list.count == 0)
        return 0;
    it_lock_library();
    for (unsigned index = 0; index < wait_list.count && found < max;)
        if (wait_list.waiter[index].condition == condition) {
            *wait_list.waiter[index].woken = 1;
            remove_waiter(index);
            found++;
        } else {
            index++;
        }
    it_unlock_library();
    return found != 0;
}

int __real_pthread_cond_signal(pthread_cond_t *condition);
int __wrap_pthread_cond_signal(pthread_cond_t *condition)
{
    return wake(condition, 1) ? 0 : __real_pthread_cond_signal(condition);
}

int __real_pthread_cond_broadcast(pthread_cond_t *condition);
int __wrap_pthread_cond_broadcast(pthread_cond_t *condition)
{
    wake(condition, IT_THREADS);
    return __real_pthread_cond_broadcast(condition);
}

static void begin_list_wait(pthread_cond_t *condition)
{
    it_lock_library();
    woken = 0;
    wait_list.waiter[wait_list.count++] = (struct waiter) { condition, &woken };
    it_unlock_library();
}

/* Takes the thread off the list. Returns 0 if another thread has woken it, else ETIMEDOUT. */
static int end_list_wait(void)
{
    int result = 0;
    it_lock_library();
    if (!woken) {
        unsigned index = 0;
        while (wait_list.waiter[index].woken != &woken)
            index++;
        remove_waiter(index);
        result = ETIMEDOUT;
    }
    it_unlock_library();
    return result;
}

int pthread_cond_timedwait(pthread_cond_t *restrict condition, pthread_mutex_t *restrict mutex,
                           const struct timespec *restrict time)
{
    if (!it_is_valid_time(time))
        return EINVAL;
    begin_list_wait(condition);
    int result = pthread_mutex_unlock(mutex);
    if (result != 0) {
        end_list_wait();
        return result;
    }
    struct it_wait wait = it_begin_wait(*time);
    while (!woken && !it_is_cancelled() && it_wait_yield(&wait))
        ;
    result = end_list_wait();
    it_end_wait(&wait, result == ETIMEDOUT);
    pthread_mutex_lock(mutex);
    it_end_if_cancelled();
    return result;
}

IT_TIMED_LOCK(, pthread_mutex_timedlock, pthread_mutex_t, pthread_mutex_trylock)

static int fail_with(int error)
{
    errno = error;
    return -1;
}

int sem_timedwait(sem_t *restrict semaphore, const struct timespec *restrict time)
{
    int result = sem_trywait(semaphore);
    if (result == 0)
        return 0;
    if (!it_is_valid_time(time))
        return fail_with(EINVAL);
    struct it_wait wait = it_begin_wait(*time);
    while (result != 0 && !it_is_cancelled() && it_wait_yield(&wait))
        result = sem_trywait(semaphore);
    it_end_wait(&wait, result != 0);
    if (result != 0)
        it_end_if_cancelled();
    return result == 0 ? 0 : fail_with(ETIMEDOUT);
}

/* All clocks have the same time. */
IT_REPLACEABLE int pthread_cond_clockwait(pthread_cond_t *restrict condition, pthread_mutex_t *restrict mutex,
                                          clockid_t clock, const struct timespec *restrict time)
{
    (void)clock;
    return pthread_cond_timedwait(condition, mutex, time);
}

IT_REPLACEABLE int pthread_mutex_clocklock(pthread_mutex_t *restrict mutex, clockid_t clock,
                                           const struct timespec *restrict time)
{
    (void)clock;
    return pthread_mutex_timedlock(mutex, time);
}

IT_REPLACEABLE int sem_clockwait(sem_t *restrict semaphore, clockid_t clock, const struct timespec *restrict time)
{
    (void)clock;
    return sem_timedwait(semaphore, time);
}
