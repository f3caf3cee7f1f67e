/* Shared by the files of the counted clock. */
#ifndef IT_COUNTED_H
#define IT_COUNTED_H

#include <errno.h>
#include <time.h>
#include "../library.h"

enum { IT_NS_PER_SECOND = 1000000000 };

/* Advances the thread's time and returns it, counted from 1970. */
struct timespec it_now(void);

/* A wait of the thread for a time: the time; how many yields remain that count; and how many at most may not count
   because another thread has made more calls. */
struct it_wait {
    struct timespec until;
    unsigned yields, uncounted;
};

struct it_wait it_begin_wait(struct timespec then);

/* Yields and returns 1, or returns 0 at once if the time has passed. */
int it_wait_yield(struct it_wait *wait);

void it_end_wait(const struct it_wait *wait, int timed_out);

static inline int it_is_valid_time(const struct timespec *time)
{
    return time->tv_nsec >= 0 && time->tv_nsec < IT_NS_PER_SECOND;
}

static inline int it_is_before(struct timespec one, struct timespec other)
{
    return one.tv_sec < other.tv_sec || (one.tv_sec == other.tv_sec && one.tv_nsec < other.tv_nsec);
}

static inline struct timespec it_sum(struct timespec one, struct timespec other)
{
    struct timespec sum = { one.tv_sec + other.tv_sec, one.tv_nsec + other.tv_nsec };
    if (sum.tv_nsec >= IT_NS_PER_SECOND) {
        sum.tv_nsec -= IT_NS_PER_SECOND;
        sum.tv_sec++;
    }
    return sum;
}

/* The later minus the earlier. */
static inline struct timespec it_difference(struct timespec later, struct timespec earlier)
{
    struct timespec rest = { later.tv_sec - earlier.tv_sec, later.tv_nsec - earlier.tv_nsec };
    if (rest.tv_nsec < 0) {
        rest.tv_nsec += IT_NS_PER_SECOND;
        rest.tv_sec--;
    }
    return rest;
}

/* A function that tries a lock until the caller has it, or until the time has passed: then it returns ETIMEDOUT. */
#define IT_TIMED_LOCK(replaceable, function, type, try)                                                                \
    replaceable int function(type *restrict lock, const struct timespec *restrict time)                                \
    {                                                                                                                  \
        int result = try(lock);                                                                                        \
        if (result != EBUSY)                                                                                           \
            return result;                                                                                             \
        if (!it_is_valid_time(time))                                                                                   \
            return EINVAL;                                                                                             \
        struct it_wait wait = it_begin_wait(*time);                                                                    \
        while (result == EBUSY && it_wait_yield(&wait))                                                                \
            result = try(lock);                                                                                        \
        it_end_wait(&wait, result == EBUSY);                                                                           \
        return result == EBUSY ? ETIMEDOUT : result;                                                                   \
    }

#endif
