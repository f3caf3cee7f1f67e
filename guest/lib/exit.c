/* The ends of a guest: exit with its handlers, _exit, abort, assert, and the end of a thread. */
#include <stdio.h>
#include <stdlib.h>
#include <string.h>
#include <unistd.h>
#include "library.h"

/* The code that a shell reports for a program ended by SIGABRT: 128 + 6. */
enum { ABORT_CODE = 134, MAX_HANDLERS = 64 };

/* The handlers that exit calls. A program without atexit doesn't have this section either: the linker's script sees
   from its size whether there are handlers. */
static __attribute__((section(".bss.it_handlers"))) struct IT_PAGE_ALIGNED {
    unsigned count;
    void (*function[MAX_HANDLERS])(void);
} handlers;

extern void (*const it_destructors[])(void), (*const it_destructors_end[])(void);
extern __attribute__((weak)) const char it_has_handlers[]; /* weak, since it may be 0 */

static void run_handlers(void)
{
    while (handlers.count)
        handlers.function[--handlers.count]();
}

int atexit(void (*function)(void))
{
    int result = -1;
    it_shared.run_handlers = run_handlers;
    it_lock_library();
    if (handlers.count < MAX_HANDLERS) {
        handlers.function[handlers.count++] = function;
        result = 0;
    }
    it_unlock_library();
    return result;
}

void _exit(int code)
{
    it_last_call(IT_CALL_EXIT, (unsigned)code);
}

void _Exit(int code)
{
    _exit(code);
}

#ifdef IT_ON_EXIT
int it_exit_code;
#endif

void exit(int code)
{
#ifdef IT_ON_EXIT
    it_exit_code = code;
#endif
    if (it_shared.run_handlers)
        it_shared.run_handlers();
    for (void (*const *each)(void) = it_destructors_end; each != it_destructors;)
        (*--each)();
    it_finish_io();
    _exit(code);
}

static inline void raise_abort(void)
{
#ifdef IT_SIGNALS
    it_raise_abort();
#endif
}

void abort(void)
{
    raise_abort();
    it_abort_with("abort was called");
}

void it_abort_with(const char *message)
{
    fputs("guest ended: ", stderr);
    fputs(message, stderr);
    fputs("\n", stderr);
    it_finish_io();
    _exit(ABORT_CODE);
}

void __assert_func(const char *file, int line, const char *function, const char *expression)
{
    const char *inside = function ? function : "", *colon = function ? ": " : "";
    fprintf(stderr, "%s:%d: %s%sAssertion `%s' failed.\n", file, line, inside, colon, expression);
    raise_abort();
    it_finish_io();
    _exit(ABORT_CODE);
}

/* The last thread that ends calls exit(0), as POSIX requires. Only in a guest with handlers it must be known which
   thread that is. The number of other threads that still run is a semaphore's value: a call that subtracts from it, or
   finds it 0, needs no memory that threads share. */
void it_end_thread(void *value)
{
    if (it_self.run_key_destructors)
        it_self.run_key_destructors();
    if (it_self.release_heap)
        it_self.release_heap();
    if (it_self.io_pending)
        it_finish_io();
    if (it_has_handlers && it_call(IT_CALL_SEM_TRYWAIT, IT_OTHER_THREADS, 0) != 0)
        exit(0);
    it_record_end();
    it_last_call(IT_CALL_THREAD_EXIT, (unsigned)value);
}
