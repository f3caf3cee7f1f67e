/* Reader-writer locks: each call is the machine's of the same name, with the lock's number. The number is found as for
   a mutex, but in a table of its own, so that a program without such locks doesn't have its page. */
#include <errno.h>
#include <pthread.h>
#include "../attributes.h"
#include "../library.h"
#ifndef IT_READ_TRIES /* else read_tries.c has the locks */
#include "../table.h"

static struct table locks;

/* How many times the thread has locked each lock to read, besides the machine's one time. */
static _Thread_local unsigned extra_reads[IT_OBJECTS];

/* Returns the number of a lock, and gives it one if it has none; -1 if all are in use. */
static int lock_number(const pthread_rwlock_t *lock)
{
    unsigned slot;
    int number = find_object(&locks, (unsigned)lock, &slot);
    if (number >= 0)
        return number;
    it_lock_library();
    number = find_object(&locks, (unsigned)lock, &slot);
    if (number < 0 && slot < IT_PROGRAM_OBJECTS) {
        number = (int)slot;
        locks.object[slot] = (unsigned)lock;
    }
    it_unlock_library();
    return number;
}

static unsigned number_or_end(const pthread_rwlock_t *lock)
{
    int number = lock_number(lock);
    if (number < 0)
        it_abort_with("more than 63 reader-writer locks are in use");
    return (unsigned)number;
}

static int lock_call(enum it_call which, unsigned number)
{
    switch (it_ordered_call(which, number, 0)) {
    case 0:
        return 0;
    case -IT_EPERM:
        return EPERM;
    case -IT_EAGAIN:
        return EAGAIN;
    case -IT_EBUSY:
        return EBUSY;
    default:
        return EDEADLK;
    }
}

IT_REPLACEABLE int pthread_rwlock_init(pthread_rwlock_t *restrict lock, const pthread_rwlockattr_t *restrict attributes)
{
    (void)attributes;
    return lock_number(lock) < 0 ? EAGAIN : 0;
}

IT_REPLACEABLE int pthread_rwlock_destroy(pthread_rwlock_t *lock)
{
    unsigned number = number_or_end(lock);
    if (lock_call(IT_CALL_TRYWRLOCK, number) != 0)
        return EBUSY;
    lock_call(IT_CALL_RWUNLOCK, number);
    it_lock_library();
    locks.object[number] = DELETED;
    it_unlock_library();
    return 0;
}

/* The machine returns EAGAIN if the thread already reads. */
IT_REPLACEABLE int pthread_rwlock_rdlock(pthread_rwlock_t *lock)
{
    unsigned number = number_or_end(lock);
    int result = lock_call(IT_CALL_RDLOCK, number);
    if (result != EAGAIN)
        return result;
    extra_reads[number]++;
    return 0;
}

IT_RETURNS(int, pthread_rwlock_wrlock, (pthread_rwlock_t *lock), lock_call(IT_CALL_WRLOCK, number_or_end(lock)))
IT_RETURNS(int, pthread_rwlock_trywrlock, (pthread_rwlock_t *lock), lock_call(IT_CALL_TRYWRLOCK, number_or_end(lock)))

IT_REPLACEABLE int pthread_rwlock_unlock(pthread_rwlock_t *lock)
{
    unsigned number = number_or_end(lock);
    if (extra_reads[number] == 0)
        return lock_call(IT_CALL_RWUNLOCK, number);
    extra_reads[number]--;
    return 0;
}

#endif

IT_REPLACEABLE int pthread_rwlockattr_init(pthread_rwlockattr_t *attributes)
{
    *attributes = (pthread_rwlockattr_t) { PTHREAD_PROCESS_PRIVATE, PTHREAD_RWLOCK_DEFAULT_NP };
    return 0;
}

IT_ATTRIBUTES_OF(IT_REPLACEABLE, rwlockattr)

IT_REPLACEABLE int pthread_rwlockattr_setkind_np(pthread_rwlockattr_t *attributes, int kind)
{
    if (kind < PTHREAD_RWLOCK_PREFER_READER_NP || kind > PTHREAD_RWLOCK_PREFER_WRITER_NONRECURSIVE_NP)
        return EINVAL;
    attributes->kind = kind;
    return 0;
}

IT_ATTRIBUTE(IT_REPLACEABLE, pthread_rwlockattr_getkind_np, pthread_rwlockattr_t, int, kind)
