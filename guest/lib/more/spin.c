/* Spin locks: each is one of the machine's mutexes. A thread that really spun would never see the lock released. */
#include <errno.h>
#include <pthread.h>
#include "../library.h"

static int lock_call(enum it_call number, pthread_spinlock_t *lock)
{
    int result = it_ordered_call(number, it_number_or_end(IT_MUTEX, (void *)lock), 0);
    return result == -IT_EDEADLK ? EDEADLK : -result;
}

IT_REPLACEABLE int pthread_spin_init(pthread_spinlock_t *lock, int shared)
{
    (void)shared;
    return it_number(IT_MUTEX, (void *)lock) < 0 ? EAGAIN : 0;
}

IT_REPLACEABLE int pthread_spin_destroy(pthread_spinlock_t *lock)
{
    if (lock_call(IT_CALL_TRYLOCK, lock) != 0)
        return EBUSY;
    lock_call(IT_CALL_UNLOCK, lock);
    it_free_number(IT_MUTEX, (void *)lock);
    return 0;
}

IT_RETURNS(int, pthread_spin_lock, (pthread_spinlock_t *lock), lock_call(IT_CALL_LOCK, lock))
IT_RETURNS(int, pthread_spin_trylock, (pthread_spinlock_t *lock), lock_call(IT_CALL_TRYLOCK, lock))
IT_RETURNS(int, pthread_spin_unlock, (pthread_spinlock_t *lock), lock_call(IT_CALL_UNLOCK, lock))
