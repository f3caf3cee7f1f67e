/* Exit handlers that get the exit code, and those of quick_exit. Each kind has a list; the last one is called first. */
#include <stdlib.h>
#include <unistd.h>
#include "../library.h"

enum { MAX_HANDLERS = 32 };

#ifdef IT_ON_EXIT
static struct IT_PAGE_ALIGNED {
    unsigned count;
    struct { void (*function)(int, void *); void *argument; } entry[MAX_HANDLERS];
} handlers;

/* It is registered with atexit once for each handler, so that all handlers are called in order. */
static void call_last(void)
{
    handlers.count--;
    handlers.entry[handlers.count].function(it_exit_code, handlers.entry[handlers.count].argument);
}

IT_REPLACEABLE int on_exit(void (*function)(int, void *), void *argument)
{
    it_lock_library();
    int fits = handlers.count < MAX_HANDLERS;
    if (fits) {
        handlers.entry[handlers.count].function = function;
        handlers.entry[handlers.count++].argument = argument;
    }
    it_unlock_library();
    return fits ? atexit(call_last) : -1;
}
#endif

static struct IT_PAGE_ALIGNED {
    unsigned count;
    void (*function[MAX_HANDLERS])(void);
} quick;

int at_quick_exit(void (*function)(void))
{
    it_lock_library();
    int fits = quick.count < MAX_HANDLERS;
    if (fits)
        quick.function[quick.count++] = function;
    it_unlock_library();
    return fits ? 0 : -1;
}

void quick_exit(int code)
{
    while (quick.count)
        quick.function[--quick.count]();
    it_finish_io();
    _exit(code);
}
