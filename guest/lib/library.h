/* Shared by the files of the library: each thread's own data, the library's own objects, and the calls that it
   makes. */
#ifndef IT_LIBRARY_H
#define IT_LIBRARY_H

#include "ithreads.h"

enum { IT_PROCESS = 1, IT_PROCESSORS = 4 }; /* what getpid and sysconf return */

/* The last object of each kind is the library's: its mutex, a condition that is never signalled, and the number of
   other threads that still run. */
enum { IT_OWN_MUTEX = 63, IT_NEVER_SIGNALLED = 63, IT_OTHER_THREADS = 63, IT_PROGRAM_OBJECTS = 63 };

/* A thread's own data, in its block of thread-local data. At the start of each step `io_pending` is 0, unless the call
   before was the library's own: before a call of the program the library outputs all that was written, and unlocks
   stdin. */
struct it_self {
    unsigned number;                   /* of the thread */
    unsigned io_pending;               /* nonzero if there are bytes to output, or stdin is locked */
    unsigned char *page, *next;        /* the page being filled, and where the next byte goes */
    unsigned char *call_start;         /* where the bytes of the current stdio call begin, or null */
    int holds_stdin;
    unsigned conversion_cost;          /* of the numbers turned into text or back since the last call */
    void (*release_heap)(void);        /* called at the thread's end, or null */
    void (*run_key_destructors)(void); /* the same */
};
extern _Thread_local struct it_self it_self;

/* Read by all threads, on a page of its own: it hardly changes. */
struct IT_PAGE_ALIGNED it_shared {
    /* Whether a thread has been created. It is stored before the first one exists, so all other threads see it. */
    int threads_created;
    void (*run_handlers)(void); /* those of atexit, or null */
};
extern struct it_shared it_shared;

/* Outputs what is buffered, and unlocks stdin. */
void it_finish_io(void);

/* A call of the program: what the thread did before is complete for all threads that see the call. */
static inline int it_ordered_call(enum it_call number, unsigned first, unsigned second)
{
    if (it_self.io_pending)
        it_finish_io();
    return it_call(number, first, second);
}

/* The library's own mutex. While there is one thread, nothing is locked. */
static inline void it_lock_library(void)
{
    if (it_shared.threads_created)
        it_call(IT_CALL_LOCK, IT_OWN_MUTEX, 0);
}

static inline void it_unlock_library(void)
{
    if (it_shared.threads_created)
        it_call(IT_CALL_UNLOCK, IT_OWN_MUTEX, 0);
}

/* A function that isn't of ISO C: a program may define its own of that name. */
#define IT_REPLACEABLE __attribute__((weak))

/* Such a function that only returns a value. */
#define IT_RETURNS(type, function, parameters, value)                                                                  \
    IT_REPLACEABLE type function parameters                                                                            \
    {                                                                                                                  \
        return value;                                                                                                  \
    }

/* The kinds of numbered objects. */
enum it_kind { IT_MUTEX, IT_SEMAPHORE, IT_BARRIER, IT_CONDITION };

/* Returns the number of an object, and gives it one if it has none; -1 if all are in use. */
int it_number(enum it_kind kind, const void *object);

/* The same, but if all are in use the guest ends, with a message. */
unsigned it_number_or_end(enum it_kind kind, const void *object);

/* Makes an object's number free. */
void it_free_number(enum it_kind kind, const void *object);

/* Ends the guest as abort does, with a message on stderr. */
void it_abort_with(const char *message) __attribute__((noreturn));

/* Calls the functions of pthread_cleanup_push that haven't been popped, the last one first. guest/build sets IT_CLEANUP
   if a program has such. */
void it_run_cleanups(void);

/* What a new thread calls. It is on its creator's stack, and the new thread sees it as it was at the create.
   guest/build sets IT_SCHEDULED if a program reads a thread's policy. */
struct it_start_args {
    void *(*function)(void *);
    void *argument;
#ifdef IT_SCHEDULED
    unsigned scheduling;
#endif
#ifdef IT_SIGNALS
    unsigned long long blocked;
#endif
};

/* The policy and priority for a thread with the attributes, which may be null; and the call that stores them. */
unsigned it_scheduling_for(const void *attributes);
void it_set_scheduling(unsigned thread, unsigned scheduling);

/* Whether a thread is detached; only if guest/build sets IT_DETACHED. */
int it_is_detached(unsigned thread);

/* Takes the pending signals of the thread, and returns whether a handler was called; gets and sets the signals that the
   thread blocks; and raises SIGABRT if the program catches it. guest/build sets IT_SIGNALS if a program handles or
   blocks signals. */
#ifdef IT_SIGNALS
int it_take_signals(void);
#else
static inline int it_take_signals(void) { return 0; }
#endif
unsigned long long it_blocked_signals(void);
void it_block_signals(unsigned long long set);
void it_raise_abort(void);

/* Whether the thread has been cancelled and allows that; what ends it then, or only with the asynchronous type; and how
   threads record their begin and end. guest/build sets IT_CANCEL if a program cancels threads. */
#ifdef IT_CANCEL
int it_is_cancelled(void);
void it_end_if_cancelled(void);
void it_end_if_async_cancelled(void);
void it_record_create(unsigned thread);
void it_record_end(void);
void it_wait_for_end(unsigned thread);
#else
static inline int it_is_cancelled(void) { return 0; }
static inline void it_end_if_cancelled(void) { }
static inline void it_end_if_async_cancelled(void) { }
static inline void it_record_create(unsigned thread) { (void)thread; }
static inline void it_record_end(void) { }
static inline void it_wait_for_end(unsigned thread) { (void)thread; }
#endif

/* The code of exit, for the handlers of on_exit; only if guest/build sets IT_ON_EXIT. */
extern int it_exit_code;

/* Ends the calling thread. */
void it_end_thread(void *value) __attribute__((noreturn));

/* Unlocks stdin, if the thread holds it. */
void it_unlock_stdin(void);

/* A tenth. Without a multiplication it is an eighth of 1/2 + 1/4, times 1 + 1/16, and so on, which is slightly less
   than 8/10: so it is right or 1 too small, and the remainder shows which. */
static inline unsigned it_div10(unsigned number, unsigned *remainder)
{
#ifdef __riscv_mul
    *remainder = number % 10;
    return number / 10;
#else
    unsigned quotient = (number >> 1) + (number >> 2);
    quotient += quotient >> 4;
    quotient += quotient >> 8;
    quotient += quotient >> 16;
    quotient >>= 3;
    *remainder = number - (((quotient << 2) + quotient) << 1);
    if (*remainder > 9) {
        quotient++;
        *remainder -= 10;
    }
    return quotient;
#endif
}

#endif
