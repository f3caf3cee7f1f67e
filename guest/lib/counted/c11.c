/* What of C11's threads.h waits for a time. */
#include <errno.h>
#include <threads.h>
#include "counted.h"

static int thrd_result(int result)
{
    return result == 0 ? thrd_success : result == ETIMEDOUT ? thrd_timedout : thrd_error;
}

/* C11, 7.26.5.7: -1 if a signal has ended it, and another negative number if it failed. */
IT_REPLACEABLE int thrd_sleep(const struct timespec *length, struct timespec *rest)
{
    if (nanosleep(length, rest) == 0)
        return 0;
    return errno == EINTR ? -1 : -2;
}

IT_REPLACEABLE int mtx_timedlock(mtx_t *restrict mutex, const struct timespec *restrict time)
{
    return thrd_result(pthread_mutex_timedlock(mutex, time));
}

IT_REPLACEABLE int cnd_timedwait(cnd_t *restrict condition, mtx_t *restrict mutex, const struct timespec *restrict time)
{
    return thrd_result(pthread_cond_timedwait(condition, mutex, time));
}
