/* Waits with a time for a reader-writer lock. */
#include <pthread.h>
#include "counted.h"

IT_TIMED_LOCK(IT_REPLACEABLE, pthread_rwlock_timedwrlock, pthread_rwlock_t, pthread_rwlock_trywrlock)

/* All clocks have the same time. */
IT_REPLACEABLE int pthread_rwlock_clockwrlock(pthread_rwlock_t *restrict lock, clockid_t clock,
                                              const struct timespec *restrict time)
{
    (void)clock;
    return pthread_rwlock_timedwrlock(lock, time);
}

#ifdef IT_READ_TRIES
int it_tryrdlock(pthread_rwlock_t *lock);
IT_TIMED_LOCK(IT_REPLACEABLE, pthread_rwlock_timedrdlock, pthread_rwlock_t, it_tryrdlock)

IT_REPLACEABLE int pthread_rwlock_clockrdlock(pthread_rwlock_t *restrict lock, clockid_t clock,
                                              const struct timespec *restrict time)
{
    (void)clock;
    return pthread_rwlock_timedrdlock(lock, time);
}
#endif
