/* Reader-writer locks for a program that tries to read, for which the machine has no call. guest/build compiles this if
   a program calls pthread_rwlock_tryrdlock or a form of rdlock with a time. A lock is a mutex and a condition, and its
   state is in the object: how many threads read, or that one writes, and how many wait to write. As in the machine, a
   thread that comes to read waits behind these. */
#ifdef IT_READ_TRIES
#include <errno.h>
#include <pthread.h>
#include "../library.h"

enum { WRITER = 0xFFFF, READERS = 0xFFFF, ONE_WAITER = 0x10000 };

/* How many times the thread has locked each lock to read; -1 if it writes. */
static _Thread_local int held[IT_OBJECTS];

static int can_lock(int state, int write)
{
    return write ? (state & READERS) == 0 : state < ONE_WAITER && state != WRITER;
}

static void lock_state(unsigned number)
{
    it_ordered_call(IT_CALL_LOCK, number, 0);
}

static void unlock_state(unsigned number)
{
    it_call(IT_CALL_UNLOCK, number, 0);
}

/* Takes the lock, which the thread may have now. */
static void acquire(pthread_rwlock_t *lock, unsigned number, int write)
{
    lock->unused += write ? WRITER : 1;
    held[number] = write ? -1 : 1;
}

static int try_lock(pthread_rwlock_t *lock, int write)
{
    unsigned number = it_number_or_end(IT_MUTEX, lock);
    if (held[number] < 0 || (held[number] && write))
        return EDEADLK;
    if (held[number]) {
        held[number]++;
        return 0;
    }
    lock_state(number);
    int acquired = can_lock(lock->unused, write);
    if (acquired)
        acquire(lock, number, write);
    unlock_state(number);
    return acquired ? 0 : EBUSY;
}

static int wait_lock(pthread_rwlock_t *lock, int write)
{
    int result = try_lock(lock, write);
    if (result != EBUSY)
        return result;
    unsigned number = it_number_or_end(IT_MUTEX, lock), condition = it_number_or_end(IT_CONDITION, lock);
    lock_state(number);
    lock->unused += write ? ONE_WAITER : 0;
    while (!can_lock(lock->unused, write))
        it_call(IT_CALL_COND_WAIT, condition, number);
    lock->unused -= write ? ONE_WAITER : 0;
    acquire(lock, number, write);
    unlock_state(number);
    return 0;
}

/* For a call that only tries, a lock that the thread already holds is busy. */
static int busy_result(int result)
{
    return result == EDEADLK ? EBUSY : result;
}

IT_RETURNS(int, it_tryrdlock, (pthread_rwlock_t *lock), try_lock(lock, 0))
IT_RETURNS(int, pthread_rwlock_rdlock, (pthread_rwlock_t *lock), wait_lock(lock, 0))
IT_RETURNS(int, pthread_rwlock_wrlock, (pthread_rwlock_t *lock), wait_lock(lock, 1))
IT_RETURNS(int, pthread_rwlock_tryrdlock, (pthread_rwlock_t *lock), busy_result(try_lock(lock, 0)))
IT_RETURNS(int, pthread_rwlock_trywrlock, (pthread_rwlock_t *lock), busy_result(try_lock(lock, 1)))

IT_REPLACEABLE int pthread_rwlock_unlock(pthread_rwlock_t *lock)
{
    unsigned number = it_number_or_end(IT_MUTEX, lock);
    if (held[number] == 0)
        return EPERM;
    if (held[number] > 1) {
        held[number]--;
        return 0;
    }
    lock_state(number);
    lock->unused -= held[number] < 0 ? WRITER : 1;
    held[number] = 0;
    if ((lock->unused & READERS) == 0)
        it_call(IT_CALL_BROADCAST, it_number_or_end(IT_CONDITION, lock), 0);
    unlock_state(number);
    return 0;
}

IT_REPLACEABLE int pthread_rwlock_init(pthread_rwlock_t *restrict lock, const pthread_rwlockattr_t *restrict attributes)
{
    (void)attributes;
    if (it_number(IT_MUTEX, lock) < 0 || it_number(IT_CONDITION, lock) < 0)
        return EAGAIN;
    lock->unused = 0;
    return 0;
}

IT_REPLACEABLE int pthread_rwlock_destroy(pthread_rwlock_t *lock)
{
    unsigned number = it_number_or_end(IT_MUTEX, lock);
    lock_state(number);
    int busy = lock->unused != 0;
    unlock_state(number);
    if (busy)
        return EBUSY;
    it_free_number(IT_MUTEX, lock);
    it_free_number(IT_CONDITION, lock);
    return 0;
}
#endif
