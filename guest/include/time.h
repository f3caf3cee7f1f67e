/* The C library's time.h, and what it omits of POSIX.1-2017 <time.h>. Functions that get the time or wait for a time
   exist only with `guest/build --time counted`. */
#include_next <time.h>
#ifndef IT_TIME_H
#define IT_TIME_H

#ifdef __cplusplus
extern "C" {
#endif

#ifndef CLOCK_PROCESS_CPUTIME_ID
#define CLOCK_PROCESS_CPUTIME_ID ((clockid_t) 2)
#endif
#ifndef CLOCK_THREAD_CPUTIME_ID
#define CLOCK_THREAD_CPUTIME_ID ((clockid_t) 3)
#endif
#ifndef TIME_UTC
#define TIME_UTC 1
#endif

int clock_getcpuclockid(pid_t process, clockid_t *clock);
int clock_gettime(clockid_t clock, struct timespec *time);
int clock_getres(clockid_t clock, struct timespec *step);
int clock_settime(clockid_t clock, const struct timespec *time);
int nanosleep(const struct timespec *length, struct timespec *rest);
int clock_nanosleep(clockid_t clock, int flags, const struct timespec *time, struct timespec *rest);
int timespec_get(struct timespec *time, int base);

#ifdef __cplusplus
}
#endif

#endif
