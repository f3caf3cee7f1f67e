/* Threads: create, join, exit, self, equal, yield. */
#include <errno.h>
#include <pthread.h>
#include <sched.h>
#include "library.h"

extern __attribute__((weak)) const char it_has_handlers[]; /* weak, since it may be 0 */
void it_thread_entry(void);

#ifdef IT_DETACHED
/* guest/build compiles this if a program detaches threads. A thread's state is stored by the thread that detaches it,
   creates it detached or has joined it. */
enum { DETACHED = 1, JOINED = 2 };
static struct IT_PAGE_ALIGNED { unsigned char entry[IT_THREADS]; } states;

int pthread_detach(pthread_t thread)
{
    if (thread >= IT_THREADS || states.entry[thread] == JOINED)
        return ESRCH;
    if (states.entry[thread] == DETACHED)
        return EINVAL;
    states.entry[thread] = DETACHED;
    return 0;
}

int it_is_detached(pthread_t thread)
{
    return states.entry[thread] == DETACHED;
}
#endif

int pthread_create(pthread_t *restrict thread, const pthread_attr_t *restrict attributes, void *(*function)(void *),
                   void *restrict argument)
{
    struct it_start_args start_args = { function, argument };
    (void)attributes;
#ifdef IT_SCHEDULED
    start_args.scheduling = it_scheduling_for(attributes);
#endif
#ifdef IT_SIGNALS
    start_args.blocked = it_blocked_signals();
#endif
    it_shared.threads_created = 1;
    if (it_has_handlers)
        it_call(IT_CALL_SEM_POST, IT_OTHER_THREADS, 0);
    int result = it_ordered_call(IT_CALL_CREATE, (unsigned)it_thread_entry, (unsigned)&start_args);
    if (result < 0) {
        if (it_has_handlers)
            it_call(IT_CALL_SEM_TRYWAIT, IT_OTHER_THREADS, 0);
        return -result;
    }
#ifdef IT_SCHEDULED
    it_set_scheduling((unsigned)result, start_args.scheduling);
#endif
    it_record_create((unsigned)result);
#ifdef IT_DETACHED
    if (attributes && attributes->detached)
        states.entry[result] = DETACHED;
#endif
    *thread = (pthread_t)result;
    return 0;
}

/* The machine returns the value in a register. */
int pthread_join(pthread_t thread, void **value)
{
    unsigned returned;
    if (it_self.io_pending)
        it_finish_io();
#ifdef IT_DETACHED
    if (thread < IT_THREADS && states.entry[thread])
        return states.entry[thread] == JOINED ? ESRCH : EINVAL;
#endif
    it_wait_for_end(thread);
    int result = it_call_value(IT_CALL_JOIN, thread, 0, &returned);
    if (result == -IT_EDEADLK)
        return EDEADLK;
    if (result < 0)
        return -result;
    if (value)
        *value = (void *)returned;
#ifdef IT_DETACHED
    states.entry[thread] = JOINED;
#endif
    return 0;
}

void pthread_exit(void *value)
{
#ifdef IT_CANCEL
    pthread_setcancelstate(PTHREAD_CANCEL_DISABLE, 0);
#endif
#ifdef IT_CLEANUP
    it_run_cleanups();
#endif
    it_end_thread(value);
}

pthread_t pthread_self(void)
{
    return it_self.number;
}

int pthread_equal(pthread_t one, pthread_t other)
{
    return one == other;
}

/* POSIX.1-2017 sched_yield: ends the step, and the thread sees what others stored. Returns 0. */
int sched_yield(void)
{
    int result = it_ordered_call(IT_CALL_YIELD, 0, 0);
    it_end_if_async_cancelled();
    return result;
}
