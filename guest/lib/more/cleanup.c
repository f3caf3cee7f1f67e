/* pthread_cleanup_push and pthread_cleanup_pop: each thread has a list of its own, on its stack. And the cancel state
   and type, for programs that cancel no threads. */
#include <errno.h>
#include <pthread.h>
#include "../library.h"

static _Thread_local struct it_cleanup *innermost;

void it_cleanup_push(struct it_cleanup *cleanup, void (*function)(void *), void *argument)
{
    cleanup->function = function;
    cleanup->argument = argument;
    cleanup->outer = innermost;
    innermost = cleanup;
}

void it_cleanup_pop(int execute)
{
    struct it_cleanup *cleanup = innermost;
    innermost = cleanup->outer;
    if (execute)
        cleanup->function(cleanup->argument);
}

void it_run_cleanups(void)
{
    while (innermost)
        it_cleanup_pop(1);
}

#ifndef IT_CANCEL /* else guest/lib/more/cancel.c has these */
static _Thread_local int cancel_state, cancel_type;

static int set_flag(int *current, int value, int *old)
{
    if (value != 0 && value != 1)
        return EINVAL;
    if (old)
        *old = *current;
    *current = value;
    return 0;
}

IT_REPLACEABLE int pthread_setcancelstate(int state, int *old)
{
    return set_flag(&cancel_state, state, old);
}

IT_REPLACEABLE int pthread_setcanceltype(int type, int *old)
{
    return set_flag(&cancel_type, type, old);
}

IT_REPLACEABLE void pthread_testcancel(void)
{
}
#endif
