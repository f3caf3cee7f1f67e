/* Mutexes, conditions, barriers and semaphores: unless noted, each call is the machine's of the same name, with the
   object's number. */
#include <errno.h>
#include <pthread.h>
#include <semaphore.h>
#include "library.h"

/* The number in errno.h for a negated error of the machine. */
static int errno_of(int result)
{
    switch (result) {
    case -IT_EPERM:
        return EPERM;
    case -IT_ESRCH:
        return ESRCH;
    case -IT_EAGAIN:
        return EAGAIN;
    case -IT_EBUSY:
        return EBUSY;
    case -IT_EINVAL:
        return EINVAL;
    case -IT_EDEADLK:
        return EDEADLK;
    case -IT_EOVERFLOW:
        return EOVERFLOW;
    default:
        return result;
    }
}

/* ---------------------------------------------------------------------------------------------- mutexes ---- */

int pthread_mutex_init(pthread_mutex_t *restrict mutex, const pthread_mutexattr_t *restrict attributes)
{
    if (it_number(IT_MUTEX, mutex) < 0)
        return EAGAIN;
    mutex->type = attributes ? attributes->type : PTHREAD_MUTEX_DEFAULT;
    return 0;
}

int pthread_mutex_destroy(pthread_mutex_t *mutex)
{
    unsigned number = it_number_or_end(IT_MUTEX, mutex);
    if (it_ordered_call(IT_CALL_TRYLOCK, number, 0) != 0)
        return EBUSY;
    it_call(IT_CALL_UNLOCK, number, 0);
    it_free_number(IT_MUTEX, mutex);
    return 0;
}

/* The condition is never signalled, so this doesn't return. */
static void wait_forever(void)
{
    it_call(IT_CALL_LOCK, IT_OWN_MUTEX, 0);
    it_call(IT_CALL_COND_WAIT, IT_NEVER_SIGNALLED, IT_OWN_MUTEX);
}

#ifdef IT_MUTEX_TYPES

/* How often the thread has locked each mutex that it holds. guest/build compiles this if a program names a type of
   mutex: then a repeated lock needs no call, and nothing is loaded from a mutex that another thread holds. */
static _Thread_local unsigned locked[IT_OBJECTS];

static int lock_with(enum it_call call, pthread_mutex_t *mutex)
{
    unsigned number = it_number_or_end(IT_MUTEX, mutex);
    if (locked[number] && mutex->type == PTHREAD_MUTEX_RECURSIVE) {
        locked[number]++;
        return 0;
    }
    int result = it_ordered_call(call, number, 0);
    if (result == 0)
        locked[number] = 1;
    if (result == -IT_EDEADLK && mutex->type == PTHREAD_MUTEX_NORMAL)
        wait_forever();
    return errno_of(result);
}

int pthread_mutex_lock(pthread_mutex_t *mutex)
{
    return lock_with(IT_CALL_LOCK, mutex);
}

int pthread_mutex_trylock(pthread_mutex_t *mutex)
{
    return lock_with(IT_CALL_TRYLOCK, mutex);
}

int pthread_mutex_unlock(pthread_mutex_t *mutex)
{
    unsigned number = it_number_or_end(IT_MUTEX, mutex);
    if (locked[number] > 1) {
        locked[number]--;
        return 0;
    }
    locked[number] = 0;
    return errno_of(it_ordered_call(IT_CALL_UNLOCK, number, 0));
}

#else

int pthread_mutex_lock(pthread_mutex_t *mutex)
{
    int result = it_ordered_call(IT_CALL_LOCK, it_number_or_end(IT_MUTEX, mutex), 0);
    if (result == -IT_EDEADLK && mutex->type == PTHREAD_MUTEX_NORMAL)
        wait_forever();
    return errno_of(result);
}

int pthread_mutex_trylock(pthread_mutex_t *mutex)
{
    return errno_of(it_ordered_call(IT_CALL_TRYLOCK, it_number_or_end(IT_MUTEX, mutex), 0));
}

int pthread_mutex_unlock(pthread_mutex_t *mutex)
{
    return errno_of(it_ordered_call(IT_CALL_UNLOCK, it_number_or_end(IT_MUTEX, mutex), 0));
}

#endif

/* ---------------------------------------------------------------------------------------------- conditions ---- */

int pthread_cond_init(pthread_cond_t *restrict condition, const pthread_condattr_t *restrict attributes)
{
    (void)attributes;
    return it_number(IT_CONDITION, condition) < 0 ? EAGAIN : 0;
}

int pthread_cond_destroy(pthread_cond_t *condition)
{
    it_free_number(IT_CONDITION, condition);
    return 0;
}

#ifndef IT_CANCEL /* else guest/lib/more/cancel.c has these */

int pthread_cond_wait(pthread_cond_t *restrict condition, pthread_mutex_t *restrict mutex)
{
    unsigned number = it_number_or_end(IT_CONDITION, condition);
    return errno_of(it_ordered_call(IT_CALL_COND_WAIT, number, it_number_or_end(IT_MUTEX, mutex)));
}

int pthread_cond_signal(pthread_cond_t *condition)
{
    return errno_of(it_ordered_call(IT_CALL_SIGNAL, it_number_or_end(IT_CONDITION, condition), 0));
}

int pthread_cond_broadcast(pthread_cond_t *condition)
{
    return errno_of(it_ordered_call(IT_CALL_BROADCAST, it_number_or_end(IT_CONDITION, condition), 0));
}

#endif

/* ---------------------------------------------------------------------------------------------- barriers ---- */

int pthread_barrier_init(pthread_barrier_t *restrict barrier, const pthread_barrierattr_t *restrict attributes,
                         unsigned count)
{
    (void)attributes;
    if (count == 0)
        return EINVAL;
    if (count > IT_BARRIER_MOST)
        return EAGAIN;
    int number = it_number(IT_BARRIER, barrier);
    return number < 0 ? EAGAIN : errno_of(it_ordered_call(IT_CALL_BARRIER_INIT, (unsigned)number, count));
}

/* The machine refuses to set a count while a thread waits, so this shows whether one does. */
int pthread_barrier_destroy(pthread_barrier_t *barrier)
{
    unsigned number = it_number_or_end(IT_BARRIER, barrier);
    if (it_ordered_call(IT_CALL_BARRIER_INIT, number, 1) != 0)
        return EBUSY;
    it_free_number(IT_BARRIER, barrier);
    return 0;
}

int pthread_barrier_wait(pthread_barrier_t *barrier)
{
    int result = it_ordered_call(IT_CALL_BARRIER_WAIT, it_number_or_end(IT_BARRIER, barrier), 0);
    return result == IT_BARRIER_SERIAL_THREAD ? PTHREAD_BARRIER_SERIAL_THREAD : errno_of(result);
}

/* ---------------------------------------------------------------------------------------------- semaphores ---- */

#ifndef IT_CANCEL

/* The result as semaphore.h defines it. */
static int errno_result(int error)
{
    if (error == 0)
        return 0;
    errno = error;
    return -1;
}

#ifdef IT_SEM_VALUES

/* guest/build compiles this if a program calls sem_getvalue. The value is in the object, under a mutex of its own;
   below 0 it is the negated number of threads that wait, for a condition of its own. */
static unsigned lock_semaphore(sem_t *semaphore)
{
    unsigned mutex = it_number_or_end(IT_MUTEX, semaphore);
    it_ordered_call(IT_CALL_LOCK, mutex, 0);
    return mutex;
}

static int unlock_result(unsigned mutex, int error)
{
    it_call(IT_CALL_UNLOCK, mutex, 0);
    return errno_result(error);
}

int sem_init(sem_t *semaphore, int shared, unsigned value)
{
    (void)shared;
    if (value > SEM_VALUE_MAX)
        return errno_result(EINVAL);
    if (it_number(IT_MUTEX, semaphore) < 0 || it_number(IT_CONDITION, semaphore) < 0)
        return errno_result(ENOSPC);
    semaphore->unused = (int)value;
    return 0;
}

int sem_destroy(sem_t *semaphore)
{
    int has_waiters = semaphore->unused < 0;
    if (has_waiters)
        return errno_result(EBUSY);
    it_free_number(IT_MUTEX, semaphore);
    it_free_number(IT_CONDITION, semaphore);
    return 0;
}

int sem_wait(sem_t *semaphore)
{
    unsigned mutex = lock_semaphore(semaphore);
    if (--semaphore->unused < 0)
        it_call(IT_CALL_COND_WAIT, it_number_or_end(IT_CONDITION, semaphore), mutex);
    return unlock_result(mutex, 0);
}

int sem_trywait(sem_t *semaphore)
{
    unsigned mutex = lock_semaphore(semaphore);
    int available = semaphore->unused > 0;
    semaphore->unused -= available;
    return unlock_result(mutex, available ? 0 : EAGAIN);
}

int sem_post(sem_t *semaphore)
{
    unsigned mutex = lock_semaphore(semaphore);
    if (semaphore->unused == SEM_VALUE_MAX)
        return unlock_result(mutex, EOVERFLOW);
    if (semaphore->unused++ < 0)
        it_call(IT_CALL_SIGNAL, it_number_or_end(IT_CONDITION, semaphore), 0);
    return unlock_result(mutex, 0);
}

int sem_getvalue(sem_t *restrict semaphore, int *restrict value)
{
    it_ordered_call(IT_CALL_YIELD, 0, 0);
    *value = semaphore->unused > 0 ? semaphore->unused : 0;
    return 0;
}

#else

static int semaphore_call(enum it_call call, sem_t *semaphore)
{
    return errno_result(errno_of(it_ordered_call(call, it_number_or_end(IT_SEMAPHORE, semaphore), 0)));
}

int sem_init(sem_t *semaphore, int shared, unsigned value)
{
    (void)shared;
    if (value > SEM_VALUE_MAX)
        return errno_result(EINVAL);
    int number = it_number(IT_SEMAPHORE, semaphore);
    return errno_result(number < 0 ? ENOSPC : errno_of(it_ordered_call(IT_CALL_SEM_INIT, (unsigned)number, value)));
}

int sem_destroy(sem_t *semaphore)
{
    unsigned number = it_number_or_end(IT_SEMAPHORE, semaphore);
    if (it_ordered_call(IT_CALL_SEM_INIT, number, 0) != 0)
        return errno_result(EBUSY);
    it_free_number(IT_SEMAPHORE, semaphore);
    return 0;
}

int sem_wait(sem_t *semaphore)
{
    return semaphore_call(IT_CALL_SEM_WAIT, semaphore);
}

int sem_trywait(sem_t *semaphore)
{
    return semaphore_call(IT_CALL_SEM_TRYWAIT, semaphore);
}

int sem_post(sem_t *semaphore)
{
    return semaphore_call(IT_CALL_SEM_POST, semaphore);
}

#endif

#endif
