/* Cancelling threads: the waits that can be cancelled, in place of those of guest/lib/sync.c. guest/build compiles this
   if a program calls pthread_cancel.

   A waiting thread is in a list under the library's mutex, with a condition of its own. So a thread that cancels it can
   wake it, and a signal, a post or a thread's end wakes the first thread that waits for it. A semaphore's value is in
   the object, under the same mutex. */
#ifdef IT_CANCEL
#include <errno.h>
#include <pthread.h>
#include <semaphore.h>
#include "../library.h"

static struct IT_PAGE_ALIGNED {
    unsigned char requested[IT_THREADS], created[IT_THREADS], ended[IT_THREADS];
    unsigned count;
    struct waiter {
        const void *object;
        unsigned thread, condition;
        int *woken;
    } waiter[IT_THREADS]; /* in order of arrival */
} waits;

static _Thread_local int state, type, woken;

int it_is_cancelled(void)
{
    return waits.requested[it_self.number] && state == PTHREAD_CANCEL_ENABLE;
}

void it_end_if_cancelled(void)
{
    if (it_is_cancelled())
        pthread_exit(PTHREAD_CANCELED);
}

void it_end_if_async_cancelled(void)
{
    if (type == PTHREAD_CANCEL_ASYNCHRONOUS)
        it_end_if_cancelled();
}

/* ---------------------------------------------------------------------------------------------- waiting ---- */

static void lock(void)
{
    it_ordered_call(IT_CALL_LOCK, IT_OWN_MUTEX, 0);
}

static void unlock(void)
{
    it_call(IT_CALL_UNLOCK, IT_OWN_MUTEX, 0);
}

/* Called before the library's mutex is locked. */
static unsigned own_condition(void)
{
    return it_number_or_end(IT_CONDITION, &woken);
}

static void remove_waiter(unsigned index)
{
    for (waits.count--; index < waits.count; index++)
        waits.waiter[index] = waits.waiter[index + 1];
}

/* Waits at the object, with the library's mutex locked. Returns whether the thread was cancelled, and has to end. */
static int wait_on(const void *object, unsigned condition)
{
    woken = 0;
    waits.waiter[waits.count++] = (struct waiter) { object, it_self.number, condition, &woken };
    while (!woken && !it_is_cancelled())
        it_call(IT_CALL_COND_WAIT, condition, IT_OWN_MUTEX);
    if (woken)
        return 0;
    unsigned index = 0;
    while (waits.waiter[index].woken != &woken)
        index++;
    remove_waiter(index);
    return 1;
}

/* Wakes at most `max` threads, with the library's mutex locked. */
static void wake(const void *object, unsigned max)
{
    for (unsigned index = 0; index < waits.count && max;)
        if (waits.waiter[index].object == object) {
            unsigned condition = waits.waiter[index].condition;
            *waits.waiter[index].woken = 1;
            remove_waiter(index);
            it_call(IT_CALL_SIGNAL, condition, 0);
            max--;
        } else {
            index++;
        }
}

static int lock_and_wake(const void *object, unsigned max)
{
    lock();
    wake(object, max);
    unlock();
    return 0;
}

/* Unlocks the library's mutex. */
static void unlock_or_exit(int cancelled)
{
    unlock();
    if (cancelled)
        pthread_exit(PTHREAD_CANCELED);
}

/* ---------------------------------------------------------------------------------------------- threads ---- */

int pthread_cancel(pthread_t thread)
{
    if (thread >= IT_THREADS)
        return ESRCH;
    lock();
    waits.requested[thread] = 1;
    for (unsigned index = 0; index < waits.count; index++)
        if (waits.waiter[index].thread == thread)
            it_call(IT_CALL_SIGNAL, waits.waiter[index].condition, 0);
    unlock();
    it_end_if_async_cancelled();
    return 0;
}

/* Ends the step: the store of another thread's pthread_cancel is seen only after a call. */
void pthread_testcancel(void)
{
    it_ordered_call(IT_CALL_YIELD, 0, 0);
    it_end_if_cancelled();
}

static int set_flag(int *current, int value, int *old)
{
    if (value != 0 && value != 1)
        return EINVAL;
    if (old)
        *old = *current;
    *current = value;
    it_end_if_async_cancelled();
    return 0;
}

int pthread_setcancelstate(int value, int *old)
{
    return set_flag(&state, value, old);
}

int pthread_setcanceltype(int value, int *old)
{
    return set_flag(&type, value, old);
}

void it_record_create(unsigned thread)
{
    waits.created[thread] = 1;
}

void it_record_end(void)
{
    lock();
    waits.ended[it_self.number] = 1;
    wake(&waits.ended[it_self.number], IT_THREADS);
    unlock();
}

/* Returns at once if there is no such thread, or if it is the caller. */
void it_wait_for_end(unsigned thread)
{
    if (thread >= IT_THREADS || thread == it_self.number)
        return;
    unsigned condition = own_condition();
    lock();
    int cancelled = it_is_cancelled();
    while (!cancelled && (waits.created[thread] || thread == 0) && !waits.ended[thread])
        cancelled = wait_on(&waits.ended[thread], condition);
    unlock_or_exit(cancelled);
}

/* ---------------------------------------------------------------------------------------------- conditions ---- */

int pthread_cond_wait(pthread_cond_t *restrict condition, pthread_mutex_t *restrict mutex)
{
    unsigned number = it_number_or_end(IT_MUTEX, mutex), own = own_condition();
    lock();
    if (it_is_cancelled())
        unlock_or_exit(1);
    if (it_call(IT_CALL_UNLOCK, number, 0) != 0) {
        unlock();
        return EPERM;
    }
    int cancelled = wait_on(condition, own);
    unlock();
    it_call(IT_CALL_LOCK, number, 0);
    if (cancelled)
        pthread_exit(PTHREAD_CANCELED);
    return 0;
}

int pthread_cond_signal(pthread_cond_t *condition)
{
    return lock_and_wake(condition, 1);
}

int pthread_cond_broadcast(pthread_cond_t *condition)
{
    return lock_and_wake(condition, IT_THREADS);
}

/* ---------------------------------------------------------------------------------------------- semaphores ---- */

/* Unlocks the library's mutex. */
static int unlock_result(int error)
{
    unlock();
    if (error == 0)
        return 0;
    errno = error;
    return -1;
}

int sem_init(sem_t *semaphore, int shared, unsigned value)
{
    (void)shared;
    lock();
    if (value <= SEM_VALUE_MAX)
        semaphore->unused = (int)value;
    return unlock_result(value <= SEM_VALUE_MAX ? 0 : EINVAL);
}

int sem_destroy(sem_t *semaphore)
{
    int error = 0;
    lock();
    for (unsigned index = 0; index < waits.count; index++)
        if (waits.waiter[index].object == semaphore)
            error = EBUSY;
    return unlock_result(error);
}

int sem_wait(sem_t *semaphore)
{
    unsigned condition = own_condition();
    lock();
    int cancelled = it_is_cancelled();
    while (!cancelled && semaphore->unused == 0)
        cancelled = wait_on(semaphore, condition);
    semaphore->unused -= !cancelled;
    unlock_or_exit(cancelled);
    return 0;
}

int sem_trywait(sem_t *semaphore)
{
    lock();
    int available = semaphore->unused > 0;
    semaphore->unused -= available;
    return unlock_result(available ? 0 : EAGAIN);
}

int sem_post(sem_t *semaphore)
{
    lock();
    if (semaphore->unused == SEM_VALUE_MAX)
        return unlock_result(EOVERFLOW);
    semaphore->unused++;
    wake(semaphore, 1);
    return unlock_result(0);
}

int sem_getvalue(sem_t *restrict semaphore, int *restrict value)
{
    lock();
    *value = semaphore->unused;
    return unlock_result(0);
}
#endif
