/* This header is all that a guest written in C without a C library needs: the environment calls as functions, the input, and the
   functions that clang expects of such a program. No file is linked with it. For programs with a C library see pthread.h and
   semaphore.h next to it, and guest/README.md. A guest is an ordinary program:

       #include "ithreads.h"

       static unsigned work(unsigned argument) { .. return value; }       // a thread; its value is what join gives

       int main(void)
       {
           int thread = it_thread_create(work, 7);
           unsigned value;
           it_thread_join(thread, &value);
           it_put("done\n", 5);
           return 0;                                                      // ends the run: end exit 0
       }

   Names follow those of POSIX threads and semaphores, and so does the order of the arguments that both have. There are no
   attributes and no `pshared`, and it_thread_create returns the new thread's number. Mutexes, semaphores, barriers, conditions
   and reader-writer locks have numbers from 0 to 63; they need no memory, and only barriers must be initialised. A result is an
   int: 0 or a positive number if the call succeeded, or a negated error number of enum it_error. The comment of each function
   lists its results; docs/MACHINE.md has the rules.

   A thread sees other threads' stores only when its next call returns, and others see its stores only after its next call. So
   shared data needs no volatile: each call is a compiler barrier for all memory.

   After an edit of the input, steps are reused. A step is what a thread executes from one call to the next. It is reused if the
   thread's registers at its start, with the pc, are as they were, and each page that it loads, fetches or outputs from has the
   same bytes as before. docs/GUESTS.md explains what follows from that and what it is worth. In short:

   - give the data of each block of the work a page of its own (IT_PAGE_ALIGNED), and make a call (it_yield) between two blocks;
   - make a block a function of its own (IT_NOINLINE), so that no register carries anything from it into the next block;
   - each call below first clears the registers that a function may change freely (ra, t0 to t6, a2 to a6): the next step would
     see what a block had left there as a difference;
   - the stack is pages too. What a block stores there stays until it is overwritten, and until then it counts for each step of
     the thread that loads from that page, as returning from a function does. So keep data that an edit changes off the stack. */
#ifndef ITHREADS_H
#define ITHREADS_H

/* limits; docs/MACHINE.md lists them all */
enum it_limit {
    IT_PAGE = 4096,               /* bytes of a page */
    IT_THREADS = 32,              /* threads of a run, including ended ones and main's */
    IT_OBJECTS = 64,              /* of each kind: mutexes, semaphores, barriers, conditions, reader-writer locks */
    IT_INPUT_MOST = 1048576,      /* bytes of the input */
    IT_PUT_MOST = 4096,           /* bytes of one it_put */
    IT_STACK = 65536,             /* bytes of each thread's stack */
    IT_BARRIER_MOST = 32,         /* threads that meet at a barrier */
    IT_SEM_VALUE_MOST = 2147483647
};

/* error numbers, as on Linux; a failed call returns one of them negated */
enum it_error {
    IT_EPERM = 1,
    IT_ESRCH = 3,
    IT_EAGAIN = 11,
    IT_EFAULT = 14,
    IT_EBUSY = 16,
    IT_EINVAL = 22,
    IT_EDEADLK = 35,
    IT_EOVERFLOW = 75
};

/* what it_barrier_wait returns in the last thread to arrive */
enum { IT_BARRIER_SERIAL_THREAD = 1 };

/* Aligned to a page. On a structure, as in `struct IT_PAGE_ALIGNED sums { unsigned of[8]; };`, its size becomes whole
   pages, so it shares no page. On a variable it doesn't: other data may follow on the last page. */
#define IT_PAGE_ALIGNED __attribute__((aligned(4096)))

/* A function that the compiler must not inline. */
#define IT_NOINLINE __attribute__((noinline))

/* ---------------------------------------------------------------------------------------------- how a call is made ---- */

enum it_call {
    IT_CALL_EXIT, IT_CALL_PUT, IT_CALL_CREATE, IT_CALL_THREAD_EXIT, IT_CALL_JOIN, IT_CALL_YIELD, IT_CALL_LOCK, IT_CALL_TRYLOCK,
    IT_CALL_UNLOCK, IT_CALL_SEM_WAIT, IT_CALL_SEM_TRYWAIT, IT_CALL_SEM_POST, IT_CALL_SEM_INIT, IT_CALL_BARRIER_INIT,
    IT_CALL_BARRIER_WAIT, IT_CALL_COND_WAIT, IT_CALL_SIGNAL, IT_CALL_BROADCAST, IT_CALL_RDLOCK, IT_CALL_WRLOCK,
    IT_CALL_RWUNLOCK, IT_CALL_TRYWRLOCK
};

/* The next step starts with these registers as they are here, so that what is left in them must not depend on the input. */
#define IT_CLEAR                                                                                                                 \
    "mv ra, zero\n\tmv t0, zero\n\tmv t1, zero\n\tmv t2, zero\n\tmv t3, zero\n\tmv t4, zero\n\tmv t5, zero\n\tmv t6, zero\n\t"     \
    "mv a2, zero\n\tmv a3, zero\n\tmv a4, zero\n\tmv a5, zero\n\tmv a6, zero\n\t"
#define IT_CLEARED "ra", "t0", "t1", "t2", "t3", "t4", "t5", "t6", "a2", "a3", "a4", "a5", "a6", "memory"

/* guest/build defines these for --yield-every and --time counted: a call restarts the countdown to the next yield, and
   is counted. */
#ifdef IT_YIELD_EVERY
extern _Thread_local int it_countdown;
#define IT_BEGIN_COUNTDOWN it_countdown = IT_YIELD_EVERY
#else
#define IT_BEGIN_COUNTDOWN (void)0
#endif
#ifdef IT_COUNTED
extern _Thread_local unsigned it_calls;
#define IT_COUNT_CALL it_calls++
#else
#define IT_COUNT_CALL (void)0
#endif

/* Makes a call: returns its a0, and stores its a1 in *value. */
static inline __attribute__((always_inline)) int it_call_value(enum it_call number, unsigned first, unsigned second, unsigned *value)
{
    register unsigned a0 __asm__("a0") = first;
    register unsigned a1 __asm__("a1") = second;
    register unsigned a7 __asm__("a7") = number;
    IT_BEGIN_COUNTDOWN;
    IT_COUNT_CALL;
    __asm__ volatile(IT_CLEAR "ecall" : "+r"(a0), "+r"(a1) : "r"(a7) : IT_CLEARED);
    *value = a1;
    return (int)a0;
}

/* Makes a call: returns its a0. */
static inline __attribute__((always_inline)) int it_call(enum it_call number, unsigned first, unsigned second)
{
    unsigned value;
    return it_call_value(number, first, second, &value);
}

/* Makes a call that doesn't return: no step of the thread follows, so there is nothing to clear. */
static inline __attribute__((always_inline, noreturn)) void it_last_call(enum it_call number, unsigned value)
{
    register unsigned a0 __asm__("a0") = value;
    register unsigned a7 __asm__("a7") = number;
    __asm__ volatile("ecall" : : "r"(a0), "r"(a7) : "memory");
    __builtin_unreachable();
}

/* ---------------------------------------------------------------------------------------------- input and output ---- */

/* The input's first byte. The bytes after the input's end, up to IT_INPUT_MOST, are zero and may be read. */
static inline const unsigned char *it_input(void)
{
    return (const unsigned char *)0xC0001000u;
}

/* The input's length in bytes, 0 to IT_INPUT_MOST. It has a page of its own: if the length changes, a step that calls
   this is executed again, and so is a step that has the length in a register. */
static inline unsigned it_input_length(void)
{
    return *(const volatile unsigned *)0xC0000000u;
}

/* The rest is for programs without a C library. A program with one, built by `guest/build --libc`, has stdio.h,
   pthread.h and semaphore.h instead; of this header it has the part above, and it_yield. */
#ifdef IT_WITH_C_LIBRARY

#include <sched.h>

static inline int it_yield(void)
{
    return sched_yield();
}

#else

/* Appends bytes to the output. Returns count; -IT_EINVAL if count is above IT_PUT_MOST; -IT_EFAULT if a byte isn't
   readable. The step that makes the call loads these bytes, so whatever else is on their pages counts too. The next
   step starts with the count in two registers, so it is executed again when the count changes. */
static inline int it_put(const void *bytes, unsigned count)
{
    return it_call(IT_CALL_PUT, (unsigned)bytes, count);
}

/* Appends any number of bytes to the output, by as many calls as it takes. Returns count; or the result of the first
   call that failed, in which case the bytes before it are in the output. */
static inline int it_put_all(const void *bytes, unsigned count)
{
    const unsigned char *from = (const unsigned char *)bytes;
    for (unsigned left = count; left;) {
        unsigned part = left < IT_PUT_MOST ? left : IT_PUT_MOST;
        int answer = it_put(from, part);
        if (answer < 0)
            return answer;
        from += part;
        left -= part;
    }
    return (int)count;
}

/* Ends the run with the code, even if other threads still run. It doesn't return. */
static inline __attribute__((noreturn)) void it_exit(unsigned code)
{
    it_last_call(IT_CALL_EXIT, code);
}

/* ---------------------------------------------------------------------------------------------- threads ---- */

/* it_thread_create(function, argument): creates a thread that calls function(argument), an `unsigned function(unsigned)`. The function's
   result is the thread's value, as with it_thread_exit. Returns the thread's number, 1 to 31; -IT_EAGAIN if IT_THREADS threads exist.

   The machine starts a thread at an address with one word in a register, all other registers zero, and no return address. So each use of
   this macro has an entry of its own, the three instructions at 1:, which call the function and then make thread_exit. The function is
   in the call instruction, and nothing is passed in memory: each new thread would read the page of a table of functions and arguments,
   and that page would change with each argument. Therefore `function` must be the name of a function and not a variable. For a function
   that is known only at run time there is it_thread_create_at. */
#define it_thread_create(function, argument)                                                                                     \
    __extension__({                                                                                                              \
        const unsigned it_argument_of_create__ = (unsigned)(argument);                                                           \
        unsigned (*const it_function_of_create__)(unsigned) = (function);                                                        \
        register unsigned it_a0_of_create__ __asm__("a0");                                                                       \
        register unsigned it_a1_of_create__ __asm__("a1") = it_argument_of_create__;                                             \
        register unsigned it_a7_of_create__ __asm__("a7") = IT_CALL_CREATE;                                                      \
        (void)it_function_of_create__;                                                                                           \
        __asm__ volatile("la a0, 1f\n\t" IT_CLEAR "ecall\n\tj 2f\n1:\tcall %[body]\n\tli a7, %[end]\n\tecall\n2:"                \
                         : "=&r"(it_a0_of_create__), "+r"(it_a1_of_create__)                                                     \
                         : "r"(it_a7_of_create__), [body] "i"(function), [end] "i"(IT_CALL_THREAD_EXIT)                          \
                         : IT_CLEARED);                                                                                          \
        (int)it_a0_of_create__;                                                                                                  \
    })

/* Creates a thread that starts at the entry with the argument. The entry must not return: it ends by it_thread_exit.
   Returns as it_thread_create, and -IT_EINVAL if the entry isn't a multiple of 4. */
static inline int it_thread_create_at(void (*entry)(unsigned), unsigned argument)
{
    return it_call(IT_CALL_CREATE, (unsigned)entry, argument);
}

/* Ends the calling thread with the value; it keeps the mutexes that it holds. Doesn't return. If main's thread ends so, the run continues. */
static inline __attribute__((noreturn)) void it_thread_exit(unsigned value)
{
    it_last_call(IT_CALL_THREAD_EXIT, value);
}

/* Waits until the thread has ended. Returns 0 and stores the thread's value in *value, unless value is null; -IT_ESRCH if
   there is no such thread; -IT_EDEADLK if it is the caller; -IT_EINVAL if a thread, maybe the caller, has joined it or is
   waiting to. The value comes in a register, so the step after the call is executed again when the value changes. */
static inline int it_thread_join(unsigned thread, unsigned *value)
{
    unsigned left;
    int answer = it_call_value(IT_CALL_JOIN, thread, 0, &left);
    if (answer == 0 && value)
        *value = left;
    return answer;
}

/* The caller's number: 0 for the thread of main. It makes no call. */
static inline unsigned it_thread_self(void)
{
    unsigned thread;
    __asm__("mv %0, tp" : "=r"(thread));
    return thread;
}

/* Ends the step: other threads then see its stores, and the caller sees theirs. Returns 0. */
static inline int it_yield(void)
{
    return it_call(IT_CALL_YIELD, 0, 0);
}

/* ---------------------------------------------------------------------------------------------- mutexes ---- */

/* Waits until the caller has the mutex. Returns 0; -IT_EINVAL: number above 63; -IT_EDEADLK: the caller has it already. */
static inline int it_mutex_lock(unsigned mutex)
{
    return it_call(IT_CALL_LOCK, mutex, 0);
}

/* Takes the mutex if it is free. Returns 0; -IT_EINVAL: number above 63; -IT_EBUSY: it is held, maybe by the caller. */
static inline int it_mutex_trylock(unsigned mutex)
{
    return it_call(IT_CALL_TRYLOCK, mutex, 0);
}

/* Passes the mutex to the first waiting thread, or frees it. Returns 0; -IT_EINVAL: number above 63; -IT_EPERM: the caller doesn't hold it. */
static inline int it_mutex_unlock(unsigned mutex)
{
    return it_call(IT_CALL_UNLOCK, mutex, 0);
}

/* ---------------------------------------------------------------------------------------------- semaphores ---- */

/* Sets a semaphore's value, at first 0. Returns 0; -IT_EINVAL: number above 63 or value above IT_SEM_VALUE_MOST; -IT_EBUSY: a thread waits. */
static inline int it_sem_init(unsigned semaphore, unsigned value)
{
    return it_call(IT_CALL_SEM_INIT, semaphore, value);
}

/* Waits until the value is above 0, then subtracts 1. Returns 0; -IT_EINVAL: number above 63. */
static inline int it_sem_wait(unsigned semaphore)
{
    return it_call(IT_CALL_SEM_WAIT, semaphore, 0);
}

/* Subtracts 1 if the value is above 0. Returns 0; -IT_EINVAL: number above 63; -IT_EAGAIN: the value is 0. */
static inline int it_sem_trywait(unsigned semaphore)
{
    return it_call(IT_CALL_SEM_TRYWAIT, semaphore, 0);
}

/* Wakes the first waiting thread, or else adds 1. Returns 0; -IT_EINVAL: number above 63; -IT_EOVERFLOW: the value is IT_SEM_VALUE_MOST. */
static inline int it_sem_post(unsigned semaphore)
{
    return it_call(IT_CALL_SEM_POST, semaphore, 0);
}

/* ---------------------------------------------------------------------------------------------- barriers ---- */

/* Sets how many threads meet. Returns 0; -IT_EINVAL: number above 63, count 0 or above IT_BARRIER_MOST; -IT_EBUSY: a thread waits. */
static inline int it_barrier_init(unsigned barrier, unsigned count)
{
    return it_call(IT_CALL_BARRIER_INIT, barrier, count);
}

/* Waits until as many threads wait as it_barrier_init has set. Returns IT_BARRIER_SERIAL_THREAD in the last of them and
   0 in the others; -IT_EINVAL: number above 63, or not initialised. */
static inline int it_barrier_wait(unsigned barrier)
{
    return it_call(IT_CALL_BARRIER_WAIT, barrier, 0);
}

/* ---------------------------------------------------------------------------------------------- conditions ---- */

/* Releases the mutex, waits for the condition, and then waits for the mutex. There are no spurious wake-ups, but
   another thread may have had the mutex in between. Returns 0; -IT_EINVAL: a number above 63, or others wait for the
   condition with another mutex; -IT_EPERM: the caller doesn't hold the mutex. */
static inline int it_cond_wait(unsigned condition, unsigned mutex)
{
    return it_call(IT_CALL_COND_WAIT, condition, mutex);
}

/* Wakes the first waiting thread, if there is one. Returns 0; -IT_EINVAL: number above 63. */
static inline int it_cond_signal(unsigned condition)
{
    return it_call(IT_CALL_SIGNAL, condition, 0);
}

/* Wakes all waiting threads, in their order. Returns 0; -IT_EINVAL: number above 63. */
static inline int it_cond_broadcast(unsigned condition)
{
    return it_call(IT_CALL_BROADCAST, condition, 0);
}

/* ---------------------------------------------------------------------------------------------- reader-writer locks ---- */

/* Waits until no thread holds the lock to write and no earlier thread waits for it, then takes it to read, along with other readers.
   Returns 0; -IT_EINVAL: number above 63; -IT_EDEADLK: the caller holds it to write; -IT_EAGAIN: the caller holds it to read. */
static inline int it_rwlock_rdlock(unsigned lock)
{
    return it_call(IT_CALL_RDLOCK, lock, 0);
}

/* Waits until no thread holds the lock, then takes it to write. Returns 0; -IT_EINVAL: number above 63; -IT_EDEADLK:
   the caller already holds it, to write or to read. */
static inline int it_rwlock_wrlock(unsigned lock)
{
    return it_call(IT_CALL_WRLOCK, lock, 0);
}

/* Takes the lock to write if no thread holds it. Returns 0; -IT_EINVAL: number above 63; -IT_EBUSY: it is held, maybe by the caller. */
static inline int it_rwlock_trywrlock(unsigned lock)
{
    return it_call(IT_CALL_TRYWRLOCK, lock, 0);
}

/* No call tries to lock to read, so the compiler refuses this one. */
int it_rwlock_tryrdlock(unsigned lock) __attribute__((error("a read lock can't be tried. Wait for it by it_rwlock_rdlock, or try to write by it_rwlock_trywrlock.")));

/* Releases a lock that the caller holds. If no writer holds it, the threads that wait to read ahead of the first that waits to write take it; if then
   no thread holds it, the first waiting thread takes it to write. Returns 0; -IT_EINVAL: number above 63; -IT_EPERM: the caller doesn't hold it. */
static inline int it_rwlock_unlock(unsigned lock)
{
    return it_call(IT_CALL_RWUNLOCK, lock, 0);
}

/* ---------------------------------------------------------------------------------------------- text ---- */

/* Writes a number in decimal, 1 to 10 digits and nothing after them. Returns where the next byte goes. */
static inline char *it_decimal(char *to, unsigned number)
{
    static const unsigned powers[] = { 1000000000, 100000000, 10000000, 1000000, 100000, 10000, 1000, 100, 10, 1 };
    unsigned k = 0;
    while (k < 9 && number < powers[k])
        k++;
    for (; k < 10; k++) {
        char digit = '0';
        for (; number >= powers[k]; digit++) {
            number -= powers[k];
            __asm__("" : "+r"(number)); /* else the compiler makes a slower division of this loop */
        }
        *to++ = digit;
    }
    return to;
}

/* Writes a text without its final zero. Returns where the next byte goes. */
static inline char *it_text(char *to, const char *text)
{
    while (*text)
        *to++ = *text++;
    return to;
}

/* ------------------------------------------------------------------------ what clang wants of a program without a C library ---- */

/* weak, since two files of a guest may include this header; the linker drops what isn't used */
#define IT_LIBRARY __attribute__((weak))

/* The start of a guest: main's value ends the run. */
IT_LIBRARY __attribute__((naked, used)) void _start(void)
{
    __asm__("call main\n\tli a7, 0\n\tecall");
}

IT_LIBRARY void *memcpy(void *to, const void *from, __SIZE_TYPE__ count)
{
    unsigned char *t = (unsigned char *)to;
    const unsigned char *f = (const unsigned char *)from;
    if ((((unsigned)t | (unsigned)f) & 3) == 0)
        for (; count >= 4; count -= 4, t += 4, f += 4)
            *(unsigned __attribute__((may_alias)) *)(void *)t = *(const unsigned __attribute__((may_alias)) *)(const void *)f;
    while (count--)
        *t++ = *f++;
    return to;
}

IT_LIBRARY void *memmove(void *to, const void *from, __SIZE_TYPE__ count)
{
    unsigned char *t = (unsigned char *)to;
    const unsigned char *f = (const unsigned char *)from;
    if (t <= f || t >= f + count)
        return memcpy(to, from, count);
    while (count--)
        t[count] = f[count];
    return to;
}

IT_LIBRARY void *memset(void *to, int value, __SIZE_TYPE__ count)
{
    unsigned char *t = (unsigned char *)to;
    unsigned word = (unsigned char)value;
    word |= word << 8;
    word |= word << 16;
    if (((unsigned)t & 3) == 0)
        for (; count >= 4; count -= 4, t += 4)
            *(unsigned __attribute__((may_alias)) *)(void *)t = word;
    while (count--)
        *t++ = (unsigned char)value;
    return to;
}

IT_LIBRARY int memcmp(const void *one, const void *other, __SIZE_TYPE__ count)
{
    const unsigned char *a = (const unsigned char *)one, *b = (const unsigned char *)other;
    for (; count; count--, a++, b++)
        if (*a != *b)
            return *a < *b ? -1 : 1;
    return 0;
}

/* RV32I has no multiplication and no division: clang calls these for *, / and %. A product takes some 6 instructions for each
   bit of the smaller factor, a quotient some 12 for each bit of itself. On RV32IM only quotients of long long are calls. */
IT_LIBRARY unsigned __mulsi3(unsigned a, unsigned b)
{
    unsigned product = 0, few = a < b ? a : b;
    for (unsigned many = a < b ? b : a; few; many <<= 1, few >>= 1)
        if (few & 1)
            product += many;
    return product;
}

/* Quotient and remainder, by shifting and subtracting. Division by 0 gives all ones and the number as the remainder, as on RISC-V. */
#define IT_DIVIDE(name, type, top)                                                                                               \
    static inline type name(type number, type by, type *remainder)                                                               \
    {                                                                                                                            \
        type quotient = 0, bit = 1;                                                                                              \
        *remainder = number;                                                                                                     \
        if (!by)                                                                                                                 \
            return ~quotient;                                                                                                    \
        while (by < number && !(by >> (top))) {                                                                                  \
            by <<= 1;                                                                                                            \
            bit <<= 1;                                                                                                           \
        }                                                                                                                        \
        for (; bit; bit >>= 1, by >>= 1)                                                                                         \
            if (number >= by) {                                                                                                  \
                number -= by;                                                                                                    \
                quotient |= bit;                                                                                                 \
            }                                                                                                                    \
        *remainder = number;                                                                                                     \
        return quotient;                                                                                                         \
    }

IT_DIVIDE(it_divide, unsigned, 31)
IT_DIVIDE(it_divide_long, unsigned long long, 63)

IT_LIBRARY unsigned __udivsi3(unsigned number, unsigned by)
{
    unsigned remainder;
    return it_divide(number, by, &remainder);
}

IT_LIBRARY unsigned __umodsi3(unsigned number, unsigned by)
{
    unsigned remainder;
    it_divide(number, by, &remainder);
    return remainder;
}

/* C's quotient is rounded towards zero, and the remainder has the sign of the number */
IT_LIBRARY int __divsi3(int number, int by)
{
    unsigned remainder, quotient = it_divide(number < 0 ? 0u - (unsigned)number : (unsigned)number, by < 0 ? 0u - (unsigned)by : (unsigned)by, &remainder);
    return by && (number < 0) != (by < 0) ? (int)(0u - quotient) : (int)quotient;
}

IT_LIBRARY int __modsi3(int number, int by)
{
    unsigned remainder;
    it_divide(number < 0 ? 0u - (unsigned)number : (unsigned)number, by < 0 ? 0u - (unsigned)by : (unsigned)by, &remainder);
    return number < 0 ? (int)(0u - remainder) : (int)remainder;
}

/* the same for long long; at guest/build's -O2, shifts of it need no function */
IT_LIBRARY unsigned long long __muldi3(unsigned long long a, unsigned long long b)
{
    unsigned long long product = 0, few = a < b ? a : b;
    for (unsigned long long many = a < b ? b : a; few; many <<= 1, few >>= 1)
        if (few & 1)
            product += many;
    return product;
}

IT_LIBRARY unsigned long long __udivdi3(unsigned long long number, unsigned long long by)
{
    unsigned long long remainder;
    return it_divide_long(number, by, &remainder);
}

IT_LIBRARY unsigned long long __umoddi3(unsigned long long number, unsigned long long by)
{
    unsigned long long remainder;
    it_divide_long(number, by, &remainder);
    return remainder;
}

IT_LIBRARY long long __divdi3(long long number, long long by)
{
    unsigned long long remainder, size = number < 0 ? 0ull - (unsigned long long)number : (unsigned long long)number;
    unsigned long long quotient = it_divide_long(size, by < 0 ? 0ull - (unsigned long long)by : (unsigned long long)by, &remainder);
    return by && (number < 0) != (by < 0) ? (long long)(0ull - quotient) : (long long)quotient;
}

IT_LIBRARY long long __moddi3(long long number, long long by)
{
    unsigned long long remainder, size = number < 0 ? 0ull - (unsigned long long)number : (unsigned long long)number;
    it_divide_long(size, by < 0 ? 0ull - (unsigned long long)by : (unsigned long long)by, &remainder);
    return number < 0 ? (long long)(0ull - remainder) : (long long)remainder;
}

#endif /* IT_WITH_C_LIBRARY */
#endif
