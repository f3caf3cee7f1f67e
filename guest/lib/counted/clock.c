/* The clock of `guest/build --time counted`, and sleeps.

   Each thread has a time of its own, which starts with the year 2000. A call that gets the time advances it by a
   millisecond. A thread that waits for a time yields until it is reached: 100 times a second, at most 1,000 times.
   Yields don't count while another thread waits for an earlier time, so that waiting threads continue in the order of
   their times. Nor do up to 1,000 yields count while another thread is known to have made more calls, since the machine
   runs the thread with the fewest steps first. After the wait, the thread's time is the one that it waited for.

   A page that all threads share has, for each thread, the time that it has reached by waiting and the time that it
   waits for. A thread that gets the time has at least the latest time reached there, so it isn't behind a thread that
   it waited for; and a step that doesn't get the time depends on no other thread's. */
#include <errno.h>
#include <pthread.h>
#include <stddef.h>
#include <sys/resource.h>
#include <sys/time.h>
#include <sys/times.h>
#include <time.h>
#include <unistd.h>
#include "counted.h"

enum {
    EPOCH = 946684800,   /* 2000-01-01, in seconds since 1970 */
    READ_NS = 1000000,   /* nanoseconds that pass when the time is read */
    YIELD_NS = 10000000, /* and in a yield */
    TICKS = 100,         /* of `times`, in a second, as sysconf says */
    MAX_YIELDS = 1000,   /* of one wait, without those that don't count */
    LAST_CLOCK = 7       /* the last number of a clock in the C library's time.h */
};

/* Times count from EPOCH. If `until` is 0, the thread doesn't wait. */
static struct IT_PAGE_ALIGNED {
    struct {
        struct timespec reached, until;
        unsigned calls; /* made when the thread last began a wait or created a thread */
    } entry[IT_THREADS];
} shared_times;
static _Thread_local struct timespec own_time;

/* Advances the thread's time and returns it. */
static struct timespec advance_time(void)
{
    for (unsigned thread = 0; thread < IT_THREADS; thread++)
        if (it_is_before(own_time, shared_times.entry[thread].reached))
            own_time = shared_times.entry[thread].reached;
    own_time = it_sum(own_time, (struct timespec) { 0, READ_NS });
    return own_time;
}

struct timespec it_now(void)
{
    struct timespec now = advance_time();
    now.tv_sec += EPOCH;
    return now;
}

/* How many yields a time takes. */
static unsigned yields_for(struct timespec length)
{
    unsigned yields = 0;
    if (length.tv_sec < 0)
        return 0;
    if (length.tv_sec >= MAX_YIELDS / (IT_NS_PER_SECOND / YIELD_NS))
        return MAX_YIELDS;
    for (; length.tv_sec > 0; length.tv_sec--)
        yields += IT_NS_PER_SECOND / YIELD_NS;
    for (; length.tv_nsec > 0; length.tv_nsec -= YIELD_NS)
        yields++;
    return yields;
}

int __real_pthread_create(pthread_t *restrict thread, const pthread_attr_t *restrict attributes,
                          void *(*function)(void *), void *restrict argument);
int __wrap_pthread_create(pthread_t *restrict thread, const pthread_attr_t *restrict attributes,
                          void *(*function)(void *), void *restrict argument)
{
    shared_times.entry[it_self.number].calls = it_calls;
    return __real_pthread_create(thread, attributes, function, argument);
}

struct it_wait it_begin_wait(struct timespec deadline)
{
    deadline.tv_sec -= EPOCH;
    struct it_wait wait = { deadline, yields_for(it_difference(deadline, advance_time())), MAX_YIELDS };
    shared_times.entry[it_self.number].calls = it_calls;
    if (wait.yields)
        shared_times.entry[it_self.number].until = deadline;
    return wait;
}

/* Whether a yield counts. */
static int yield_counts(struct it_wait *wait)
{
    int fewer = 0;
    for (unsigned thread = 0; thread < IT_THREADS; thread++) {
        struct timespec other = shared_times.entry[thread].until;
        if ((other.tv_sec || other.tv_nsec) && it_is_before(other, wait->until))
            return 0;
        fewer |= it_calls < shared_times.entry[thread].calls;
    }
    return !fewer || !wait->uncounted || !wait->uncounted--;
}

int it_wait_yield(struct it_wait *wait)
{
    if (wait->yields == 0)
        return 0;
    it_call(IT_CALL_YIELD, 0, 0);
    if (yield_counts(wait)) {
        wait->yields--;
        own_time = it_sum(own_time, (struct timespec) { 0, YIELD_NS });
    }
    return 1;
}

void it_end_wait(const struct it_wait *wait, int timed_out)
{
    if (timed_out && it_is_before(own_time, wait->until))
        own_time = wait->until;
    if (!timed_out && it_is_before(wait->until, own_time))
        own_time = wait->until;
    shared_times.entry[it_self.number].reached = own_time;
    shared_times.entry[it_self.number].until = (struct timespec) { 0, 0 };
}

/* ---------------------------------------------------------------------------------------------- the time ---- */

static int fail_with(int error)
{
    errno = error;
    return -1;
}

static int is_clock(clockid_t clock)
{
    return clock <= LAST_CLOCK;
}

static int is_cpu_clock(clockid_t clock)
{
    return clock == CLOCK_PROCESS_CPUTIME_ID || clock == CLOCK_THREAD_CPUTIME_ID;
}

IT_REPLACEABLE int clock_gettime(clockid_t clock, struct timespec *time)
{
    if (!is_clock(clock))
        return fail_with(EINVAL);
    *time = is_cpu_clock(clock) ? advance_time() : it_now();
    return 0;
}

IT_REPLACEABLE int clock_getres(clockid_t clock, struct timespec *step)
{
    if (!is_clock(clock))
        return fail_with(EINVAL);
    if (step)
        *step = (struct timespec) { 0, READ_NS };
    return 0;
}

IT_REPLACEABLE int clock_settime(clockid_t clock, const struct timespec *time)
{
    return fail_with(clock == CLOCK_REALTIME && it_is_valid_time(time) ? EPERM : EINVAL);
}

/* There is one process, and it has one clock. */
IT_REPLACEABLE int clock_getcpuclockid(pid_t process, clockid_t *clock)
{
    (void)process;
    *clock = CLOCK_PROCESS_CPUTIME_ID;
    return 0;
}

IT_REPLACEABLE int pthread_getcpuclockid(pthread_t thread, clockid_t *clock)
{
    (void)thread;
    *clock = CLOCK_THREAD_CPUTIME_ID;
    return 0;
}

IT_REPLACEABLE int gettimeofday(struct timeval *restrict time, void *restrict zone)
{
    struct timespec now = it_now();
    (void)zone;
    *time = (struct timeval) { now.tv_sec, now.tv_nsec / 1000 };
    return 0;
}

IT_REPLACEABLE int timespec_get(struct timespec *time, int base)
{
    *time = it_now();
    return base;
}

time_t time(time_t *to)
{
    time_t now = it_now().tv_sec;
    if (to)
        *to = now;
    return now;
}

clock_t clock(void)
{
    struct timespec time = advance_time();
    return (clock_t)(time.tv_sec * CLOCKS_PER_SEC + time.tv_nsec / (IT_NS_PER_SECOND / CLOCKS_PER_SEC));
}

IT_REPLACEABLE clock_t times(struct tms *times)
{
    struct timespec time = advance_time();
    clock_t ticks = (clock_t)(time.tv_sec * TICKS + time.tv_nsec / (IT_NS_PER_SECOND / TICKS));
    *times = (struct tms) { ticks, 0, 0, 0 };
    return ticks;
}

IT_REPLACEABLE int getrusage(int who, struct rusage *usage)
{
    struct timespec time = advance_time();
    (void)who;
    *usage = (struct rusage) { { time.tv_sec, time.tv_nsec / 1000 }, { 0, 0 } };
    return 0;
}

/* ---------------------------------------------------------------------------------------------- sleeps ---- */

/* A sleep yields at least once. Returns whether a signal handler ended it. */
static int sleep_until(struct timespec deadline)
{
    struct it_wait wait = it_begin_wait(deadline);
    it_ordered_call(IT_CALL_YIELD, 0, 0);
    int interrupted = it_take_signals();
    while (!interrupted && !it_is_cancelled() && it_wait_yield(&wait))
        interrupted = it_take_signals();
    it_end_wait(&wait, !interrupted);
    it_end_if_cancelled();
    return interrupted;
}

/* The same for a length of time; stores the rest of it if a handler ended the sleep. */
static int sleep_for(struct timespec length, struct timespec *rest)
{
    struct timespec deadline = it_sum(it_now(), length);
    if (!sleep_until(deadline))
        return 0;
    *rest = it_difference(deadline, it_now());
    return 1;
}

IT_REPLACEABLE unsigned sleep(unsigned seconds)
{
    struct timespec rest;
    return sleep_for((struct timespec) { seconds, 0 }, &rest) ? (unsigned)rest.tv_sec : 0;
}

IT_REPLACEABLE int usleep(useconds_t microseconds)
{
    struct timespec length = { 0, 0 }, rest;
    for (; microseconds >= 1000000; microseconds -= 1000000)
        length.tv_sec++;
    length.tv_nsec = (long)microseconds * 1000;
    return sleep_for(length, &rest) ? fail_with(EINTR) : 0;
}

/* POSIX.1-2017 clock_nanosleep: returns the error. */
IT_REPLACEABLE int clock_nanosleep(clockid_t clock, int flags, const struct timespec *time, struct timespec *rest)
{
    struct timespec remaining;
    if (!it_is_valid_time(time) || time->tv_sec < 0 || !is_clock(clock) || clock == CLOCK_THREAD_CPUTIME_ID)
        return EINVAL;
    if (flags & TIMER_ABSTIME)
        return sleep_until(*time) ? EINTR : 0;
    if (!sleep_for(*time, &remaining))
        return 0;
    if (rest)
        *rest = remaining;
    return EINTR;
}

IT_REPLACEABLE int nanosleep(const struct timespec *length, struct timespec *rest)
{
    int error = clock_nanosleep(CLOCK_REALTIME, 0, length, rest);
    return error == 0 ? 0 : fail_with(error);
}
