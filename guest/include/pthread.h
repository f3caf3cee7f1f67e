/* POSIX threads for guests with a C library: the part of POSIX.1-2017 <pthread.h> that this machine has. Each function
   is that of the same name in POSIX.1-2017, System Interfaces; the comments list its results here. Robust mutexes are
   missing, and so is all that isn't declared here. Waits with a time exist only with `guest/build --time counted`.
   Names that end in _np or _NP are Linux's.

   A function returns 0 or one of errno.h's numbers, and doesn't set errno. A program has at most 32 threads, including
   ended ones and main's, and at once at most 63 each of mutexes, conditions, semaphores, barriers and reader-writer
   locks. A mutex, condition or reader-writer lock counts from its init or its first use until it is destroyed. If all
   63 are in use, an init returns EAGAIN, and the first use of a static object ends the guest with a message.

   Before each call here the library outputs what the thread has printed, so the prints of several threads come in the
   order of their calls. */
#ifndef _PTHREAD_H
#define _PTHREAD_H

#include <sched.h>
#include <stddef.h>
#include <time.h>

#ifdef __cplusplus
extern "C" {
#endif

/* limits.h's names for the limits of a program */
#define PTHREAD_THREADS_MAX 32
#define PTHREAD_KEYS_MAX 128
#define PTHREAD_DESTRUCTOR_ITERATIONS 4
#define PTHREAD_STACK_MIN 16384

/* unistd.h's names for the options that are supported */
#ifndef _POSIX_SPIN_LOCKS
#define _POSIX_SPIN_LOCKS 200809L
#endif
#ifndef _POSIX_BARRIERS
#define _POSIX_BARRIERS 200809L
#endif
#ifndef _POSIX_READER_WRITER_LOCKS
#define _POSIX_READER_WRITER_LOCKS 200809L
#endif

/* ---------------------------------------------------------------------------------------------- threads ---- */

typedef unsigned pthread_t;

/* Attributes of a thread. Only the detached state has an effect. */
typedef struct {
    size_t stack, guard;
    void *address;
    short detached, inherit, policy, priority;
} pthread_attr_t;

#define PTHREAD_CREATE_JOINABLE 0
#define PTHREAD_CREATE_DETACHED 1
#define PTHREAD_SCOPE_SYSTEM 0
#define PTHREAD_SCOPE_PROCESS 1
#define PTHREAD_INHERIT_SCHED 0
#define PTHREAD_EXPLICIT_SCHED 1

/* Creates a thread that calls function(argument). Returns 0; EAGAIN if there are 32 threads. */
int pthread_create(pthread_t *__restrict thread, const pthread_attr_t *__restrict attributes, void *(*function)(void *),
                   void *__restrict argument);

/* Waits until the thread has ended, and stores its value in *value. Returns 0; ESRCH if there is no such thread;
   EDEADLK if it is the caller; EINVAL if it is detached, or if a thread has joined it or waits to. (In a program that
   detaches threads, ESRCH if a thread has joined it.) */
int pthread_join(pthread_t thread, void **value);

/* Makes the thread one that can't be joined; it still counts among the 32. Returns 0; EINVAL if it is detached; ESRCH
   if a thread has joined it, or if there can't be such a thread. */
int pthread_detach(pthread_t thread);

/* Ends the calling thread. The run continues until the last thread ends, which acts as exit(0). */
void pthread_exit(void *value) __attribute__((__noreturn__));

/* The caller. */
pthread_t pthread_self(void);

/* The clock of a thread's time; only with `guest/build --time counted`. Returns 0. */
int pthread_getcpuclockid(pthread_t thread, clockid_t *clock);

/* Nonzero if both are the same thread. */
int pthread_equal(pthread_t one, pthread_t other);

/* Each returns 0. */
int pthread_attr_init(pthread_attr_t *attributes);
int pthread_attr_destroy(pthread_attr_t *attributes);

/* Return 0; EINVAL unless the state is joinable or detached. */
int pthread_attr_setdetachstate(pthread_attr_t *attributes, int state);
int pthread_attr_getdetachstate(const pthread_attr_t *attributes, int *state);

/* A stack has 65,536 bytes at a fixed place, whatever is set. Return 0; EINVAL if below PTHREAD_STACK_MIN. */
int pthread_attr_setstacksize(pthread_attr_t *__restrict attributes, size_t size);
int pthread_attr_getstacksize(const pthread_attr_t *__restrict attributes, size_t *__restrict size);
int pthread_attr_setstack(pthread_attr_t *attributes, void *address, size_t size);
int pthread_attr_getstack(const pthread_attr_t *__restrict attributes, void **__restrict address,
                          size_t *__restrict size);

/* There is no guard, since stacks are contiguous. Return 0. */
int pthread_attr_setguardsize(pthread_attr_t *attributes, size_t size);
int pthread_attr_getguardsize(const pthread_attr_t *__restrict attributes, size_t *__restrict size);

/* Return 0 for PTHREAD_SCOPE_SYSTEM, ENOTSUP for PTHREAD_SCOPE_PROCESS, else EINVAL. */
int pthread_attr_setscope(pthread_attr_t *attributes, int scope);
int pthread_attr_getscope(const pthread_attr_t *__restrict attributes, int *__restrict scope);

/* These don't affect the order of threads. SCHED_OTHER has the priority 0, SCHED_FIFO and SCHED_RR have 1 to 99. Return
   0; EINVAL if there is no such policy, or if the policy has no such priority. */
int pthread_attr_setschedpolicy(pthread_attr_t *attributes, int policy);
int pthread_attr_getschedpolicy(const pthread_attr_t *__restrict attributes, int *__restrict policy);
int pthread_attr_setschedparam(pthread_attr_t *__restrict attributes, const struct sched_param *__restrict parameters);
int pthread_attr_getschedparam(const pthread_attr_t *__restrict attributes, struct sched_param *__restrict parameters);
int pthread_attr_setinheritsched(pthread_attr_t *attributes, int inherit);
int pthread_attr_getinheritsched(const pthread_attr_t *__restrict attributes, int *__restrict inherit);

/* The same for a thread. It inherits its creator's, and main's is SCHED_OTHER; with PTHREAD_EXPLICIT_SCHED it starts
   with those of its attributes. ESRCH if there can't be such a thread. */
int pthread_setschedparam(pthread_t thread, int policy, const struct sched_param *parameters);
int pthread_getschedparam(pthread_t thread, int *__restrict policy, struct sched_param *__restrict parameters);
int pthread_setschedprio(pthread_t thread, int priority);

/* Return 0; EINVAL if the level is below 0. */
int pthread_setconcurrency(int level);
int pthread_getconcurrency(void);

/* There is no fork, so the functions are never called. Returns 0. */
int pthread_atfork(void (*prepare)(void), void (*parent)(void), void (*child)(void));

/* Calls function(argument) if the thread calls pthread_exit or is cancelled before the pop, and at the pop if `execute`
   isn't 0. Both macros are in one block; a return or a jump out of it is an error. */
#define pthread_cleanup_push(function, argument)                                                                       \
    do {                                                                                                               \
        struct it_cleanup it_cleanup__;                                                                                \
        it_cleanup_push(&it_cleanup__, (function), (argument))
#define pthread_cleanup_pop(execute)                                                                                   \
        it_cleanup_pop(execute);                                                                                       \
    } while (0)
struct it_cleanup {
    void (*function)(void *);
    void *argument;
    struct it_cleanup *outer;
};
void it_cleanup_push(struct it_cleanup *cleanup, void (*function)(void *), void *argument);
void it_cleanup_pop(int execute);

/* The same as sched_yield. */
int pthread_yield(void);

/* A thread's name, at first the program's. ERANGE if it has over 15 bytes; ESRCH if there can't be such a thread. */
int pthread_setname_np(pthread_t thread, const char *name);
int pthread_getname_np(pthread_t thread, char *name, size_t size);

/* A cancelled thread ends, as by pthread_exit(PTHREAD_CANCELED), when it waits for a condition, a semaphore or a
   thread's end, sleeps, or calls pthread_testcancel, which then ends a step. Reading and printing don't end it. With
   the asynchronous type it also ends at sched_yield; nothing interrupts a thread. Return 0; ESRCH if there can't be
   such a thread; EINVAL for any other state or type. */
#define PTHREAD_CANCEL_ENABLE 0
#define PTHREAD_CANCEL_DISABLE 1
#define PTHREAD_CANCEL_DEFERRED 0
#define PTHREAD_CANCEL_ASYNCHRONOUS 1
#define PTHREAD_CANCELED ((void *)-1)
int pthread_cancel(pthread_t thread);
int pthread_setcancelstate(int state, int *old);
int pthread_setcanceltype(int type, int *old);
void pthread_testcancel(void);

#if __GNU_VISIBLE
/* As sched_setaffinity, but they return the error's number. ESRCH if there can't be such a thread. */
int pthread_setaffinity_np(pthread_t thread, size_t size, const cpu_set_t *set);
int pthread_getaffinity_np(pthread_t thread, size_t size, cpu_set_t *set);
#endif

/* Gets a thread's attributes: where its stack is, and whether it is detached. Returns 0; ESRCH if there can't be such a
   thread. */
int pthread_getattr_np(pthread_t thread, pthread_attr_t *attributes);

/* ---------------------------------------------------------------------------------------------- mutexes ---- */

typedef struct { int type; } pthread_mutex_t;
typedef struct { int type; short shared; signed char protocol, ceiling; } pthread_mutexattr_t;

#define PTHREAD_PROCESS_PRIVATE 0
#define PTHREAD_PROCESS_SHARED 1
#define PTHREAD_PRIO_NONE 0
#define PTHREAD_PRIO_INHERIT 1
#define PTHREAD_PRIO_PROTECT 2

/* The default type checks for errors. If the owner of a normal mutex locks it again, it waits for ever, as POSIX
   requires. The owner of a recursive one must unlock it as often as it locked it; pthread_cond_wait releases it
   whatever that count is. */
#define PTHREAD_MUTEX_ERRORCHECK 0
#define PTHREAD_MUTEX_DEFAULT PTHREAD_MUTEX_ERRORCHECK
#define PTHREAD_MUTEX_NORMAL 1
#define PTHREAD_MUTEX_RECURSIVE 2
#define PTHREAD_MUTEX_INITIALIZER { PTHREAD_MUTEX_DEFAULT }

#define PTHREAD_MUTEX_TIMED_NP PTHREAD_MUTEX_NORMAL
#define PTHREAD_MUTEX_FAST_NP PTHREAD_MUTEX_NORMAL
#define PTHREAD_MUTEX_ADAPTIVE_NP PTHREAD_MUTEX_NORMAL
#define PTHREAD_MUTEX_ERRORCHECK_NP PTHREAD_MUTEX_ERRORCHECK
#define PTHREAD_MUTEX_RECURSIVE_NP PTHREAD_MUTEX_RECURSIVE
#define PTHREAD_ADAPTIVE_MUTEX_INITIALIZER_NP { PTHREAD_MUTEX_NORMAL }
#define PTHREAD_ERRORCHECK_MUTEX_INITIALIZER_NP { PTHREAD_MUTEX_ERRORCHECK }
#define PTHREAD_RECURSIVE_MUTEX_INITIALIZER_NP { (int)it_recursive_mutex }
extern const char it_recursive_mutex[]; /* its address is the type, so guest/build sees if there is such a mutex */

/* Returns 0; EAGAIN if 63 are in use. */
int pthread_mutex_init(pthread_mutex_t *__restrict mutex, const pthread_mutexattr_t *__restrict attributes);

/* Returns 0; EBUSY if a thread holds it. */
int pthread_mutex_destroy(pthread_mutex_t *mutex);

/* Waits until the caller has the mutex. Returns 0; EDEADLK if the caller already holds it and it isn't recursive. */
int pthread_mutex_lock(pthread_mutex_t *mutex);

/* Returns 0; EBUSY if it is held by another thread, or by the caller and isn't recursive. */
int pthread_mutex_trylock(pthread_mutex_t *mutex);

/* Yields until the caller has the mutex. Returns 0; ETIMEDOUT if the time has passed; EINVAL if it is invalid. */
int pthread_mutex_timedlock(pthread_mutex_t *__restrict mutex, const struct timespec *__restrict time);
int pthread_mutex_clocklock(pthread_mutex_t *__restrict mutex, clockid_t clock, const struct timespec *__restrict time);

/* Returns 0; EPERM if the caller doesn't hold it. */
int pthread_mutex_unlock(pthread_mutex_t *mutex);

/* Each returns 0. */
int pthread_mutexattr_init(pthread_mutexattr_t *attributes);
int pthread_mutexattr_destroy(pthread_mutexattr_t *attributes);

/* Return 0; EINVAL unless it is one of the types. */
int pthread_mutexattr_settype(pthread_mutexattr_t *attributes, int type);
int pthread_mutexattr_gettype(const pthread_mutexattr_t *__restrict attributes, int *__restrict type);

/* Both values are the same, as there is one process. Return 0; EINVAL for any other value. */
int pthread_mutexattr_setpshared(pthread_mutexattr_t *attributes, int shared);
int pthread_mutexattr_getpshared(const pthread_mutexattr_t *__restrict attributes, int *__restrict shared);

/* PTHREAD_PRIO_INHERIT and PTHREAD_PRIO_PROTECT have the effect of PTHREAD_PRIO_NONE. Return 0; EINVAL for any other
   protocol, or for a ceiling that isn't 1 to 99. */
int pthread_mutexattr_setprotocol(pthread_mutexattr_t *attributes, int protocol);
int pthread_mutexattr_getprotocol(const pthread_mutexattr_t *__restrict attributes, int *__restrict protocol);
int pthread_mutexattr_setprioceiling(pthread_mutexattr_t *attributes, int ceiling);
int pthread_mutexattr_getprioceiling(const pthread_mutexattr_t *__restrict attributes, int *__restrict ceiling);

#define pthread_mutexattr_setkind_np pthread_mutexattr_settype
#define pthread_mutexattr_getkind_np pthread_mutexattr_gettype

/* ---------------------------------------------------------------------------------------------- spin locks ---- */

/* Takes one of the 63 mutexes: a thread that waits for it doesn't spin. */
typedef volatile int pthread_spinlock_t;

/* Returns 0; EAGAIN if 63 mutexes are in use. `shared` has no effect. */
int pthread_spin_init(pthread_spinlock_t *lock, int shared);

/* Returns 0; EBUSY if a thread holds it. */
int pthread_spin_destroy(pthread_spinlock_t *lock);

/* Waits until the caller has the lock. Returns 0; EDEADLK if the caller already holds it. */
int pthread_spin_lock(pthread_spinlock_t *lock);

/* Returns 0; EBUSY if it is held, maybe by the caller. */
int pthread_spin_trylock(pthread_spinlock_t *lock);

/* Returns 0; EPERM if the caller doesn't hold it. */
int pthread_spin_unlock(pthread_spinlock_t *lock);

/* ---------------------------------------------------------------------------------------------- conditions ---- */

typedef struct { int unused; } pthread_cond_t;
#ifdef IT_COUNTED
typedef struct { int shared; clockid_t clock; } pthread_condattr_t;
#else
typedef struct { int shared; } pthread_condattr_t;
#endif

#define PTHREAD_COND_INITIALIZER { 0 }

/* Returns 0; EAGAIN if 63 are in use. */
int pthread_cond_init(pthread_cond_t *__restrict condition, const pthread_condattr_t *__restrict attributes);

/* Returns 0. No thread may be waiting for it. */
int pthread_cond_destroy(pthread_cond_t *condition);

/* Releases the mutex, waits for the condition, and locks the mutex again. There are no spurious wake-ups, but another
   thread may have had the mutex in between. Returns 0; EPERM if the caller doesn't hold the mutex; EINVAL if others
   wait with another mutex. */
int pthread_cond_wait(pthread_cond_t *__restrict condition, pthread_mutex_t *__restrict mutex);

/* The same, up to a time. Return 0; ETIMEDOUT if no thread has woken the caller; EPERM if the caller doesn't hold the
   mutex; EINVAL if it isn't a valid time. A signal wakes threads that wait with a time before all others. All clocks
   have the same time. */
int pthread_cond_timedwait(pthread_cond_t *__restrict condition, pthread_mutex_t *__restrict mutex,
                           const struct timespec *__restrict time);
int pthread_cond_clockwait(pthread_cond_t *__restrict condition, pthread_mutex_t *__restrict mutex, clockid_t clock,
                           const struct timespec *__restrict time);

/* Wakes the first waiting thread. Returns 0. */
int pthread_cond_signal(pthread_cond_t *condition);

/* Wakes all waiting threads. Returns 0. */
int pthread_cond_broadcast(pthread_cond_t *condition);

/* Each returns 0. */
int pthread_condattr_init(pthread_condattr_t *attributes);
int pthread_condattr_destroy(pthread_condattr_t *attributes);

/* Both values are the same, as there is one process. Return 0; EINVAL for any other value. */
int pthread_condattr_setpshared(pthread_condattr_t *attributes, int shared);
int pthread_condattr_getpshared(const pthread_condattr_t *__restrict attributes, int *__restrict shared);

/* Only with `guest/build --time counted`; all clocks have the same time. Return 0; EINVAL for a clock of CPU time. */
int pthread_condattr_setclock(pthread_condattr_t *attributes, clockid_t clock);
int pthread_condattr_getclock(const pthread_condattr_t *__restrict attributes, clockid_t *__restrict clock);

/* ---------------------------------------------------------------------------------------------- barriers ---- */

typedef struct { int unused; } pthread_barrier_t;
typedef struct { int shared; } pthread_barrierattr_t;

#define PTHREAD_BARRIER_SERIAL_THREAD (-1)

/* Returns 0; EINVAL if count is 0; EAGAIN if it is above 32 or 63 are in use; EBUSY if a thread waits. */
int pthread_barrier_init(pthread_barrier_t *__restrict barrier, const pthread_barrierattr_t *__restrict attributes,
                         unsigned count);

/* Returns 0; EBUSY if a thread waits. */
int pthread_barrier_destroy(pthread_barrier_t *barrier);

/* Waits until as many threads wait as the count says. Returns PTHREAD_BARRIER_SERIAL_THREAD in the last of them, 0 in
   the others; EINVAL if it isn't initialised. */
int pthread_barrier_wait(pthread_barrier_t *barrier);

/* Each returns 0. */
int pthread_barrierattr_init(pthread_barrierattr_t *attributes);
int pthread_barrierattr_destroy(pthread_barrierattr_t *attributes);

/* Both values are the same, as there is one process. Return 0; EINVAL for any other value. */
int pthread_barrierattr_setpshared(pthread_barrierattr_t *attributes, int shared);
int pthread_barrierattr_getpshared(const pthread_barrierattr_t *__restrict attributes, int *__restrict shared);

/* ---------------------------------------------------------------------------------------------- reader-writer locks ---- */

typedef struct { int unused; } pthread_rwlock_t;
typedef struct { int shared, kind; } pthread_rwlockattr_t;

#define PTHREAD_RWLOCK_INITIALIZER { 0 }

#define PTHREAD_RWLOCK_PREFER_READER_NP 0
#define PTHREAD_RWLOCK_PREFER_WRITER_NP 1
#define PTHREAD_RWLOCK_PREFER_WRITER_NONRECURSIVE_NP 2
#define PTHREAD_RWLOCK_DEFAULT_NP PTHREAD_RWLOCK_PREFER_READER_NP
#define PTHREAD_RWLOCK_WRITER_NONRECURSIVE_INITIALIZER_NP { 0 }

/* Returns 0; EAGAIN if 63 are in use. */
int pthread_rwlock_init(pthread_rwlock_t *__restrict lock, const pthread_rwlockattr_t *__restrict attributes);

/* Returns 0; EBUSY if a thread holds it. */
int pthread_rwlock_destroy(pthread_rwlock_t *lock);

/* Waits until no thread holds the lock to write and no earlier thread waits for it, then takes it to read, along with
   other readers. A reader may take it again, without waiting. Returns 0; EDEADLK if the caller holds it to write. */
int pthread_rwlock_rdlock(pthread_rwlock_t *lock);

/* Waits until no thread holds the lock, then takes it to write. Returns 0; EDEADLK if the caller holds it. */
int pthread_rwlock_wrlock(pthread_rwlock_t *lock);

/* Returns 0; EBUSY if it is held, maybe by the caller. */
int pthread_rwlock_trywrlock(pthread_rwlock_t *lock);

/* Returns 0; EBUSY if a thread holds it to write, or waits to. The machine has no call for this: in a program that
   calls this or a form of rdlock with a time, a lock is made of a mutex and a condition. */
int pthread_rwlock_tryrdlock(pthread_rwlock_t *lock);

/* Yield until the caller has the lock, to read or to write. Return 0; ETIMEDOUT if the time has passed; EINVAL if it
   isn't a valid time. */
int pthread_rwlock_timedrdlock(pthread_rwlock_t *__restrict lock, const struct timespec *__restrict time);
int pthread_rwlock_clockrdlock(pthread_rwlock_t *__restrict lock, clockid_t clock,
                               const struct timespec *__restrict time);
int pthread_rwlock_timedwrlock(pthread_rwlock_t *__restrict lock, const struct timespec *__restrict time);
int pthread_rwlock_clockwrlock(pthread_rwlock_t *__restrict lock, clockid_t clock,
                               const struct timespec *__restrict time);

/* Returns 0; EPERM if the caller doesn't hold it. */
int pthread_rwlock_unlock(pthread_rwlock_t *lock);

/* Each returns 0. */
int pthread_rwlockattr_init(pthread_rwlockattr_t *attributes);
int pthread_rwlockattr_destroy(pthread_rwlockattr_t *attributes);

/* Threads take the lock in the order of arrival, whatever the kind. Return 0; EINVAL unless it is one of the kinds. */
int pthread_rwlockattr_setkind_np(pthread_rwlockattr_t *attributes, int kind);
int pthread_rwlockattr_getkind_np(const pthread_rwlockattr_t *__restrict attributes, int *__restrict kind);

/* Both values are the same, as there is one process. Return 0; EINVAL for any other value. */
int pthread_rwlockattr_setpshared(pthread_rwlockattr_t *attributes, int shared);
int pthread_rwlockattr_getpshared(const pthread_rwlockattr_t *__restrict attributes, int *__restrict shared);

/* ---------------------------------------------------------------------------------------------- once, and keys ---- */

typedef int pthread_once_t; /* whether the function has been called */
typedef unsigned pthread_key_t;

#define PTHREAD_ONCE_INIT 0

/* Calls the function in the first call only; no call returns before the function has. Returns 0. It takes one of the 63
   mutexes, for good. */
int pthread_once(pthread_once_t *once, void (*function)(void));

/* Creates a key: each thread has a value of it, at first null. At a thread's end, the destructor is called with the
   value, unless one is null. Returns 0; EAGAIN if 128 keys have been created, deleted or not. */
int pthread_key_create(pthread_key_t *key, void (*destructor)(void *));

/* Returns 0; EINVAL if there is no such key. Its destructor isn't called any more. */
int pthread_key_delete(pthread_key_t key);

/* Returns 0; EINVAL if there is no such key. */
int pthread_setspecific(pthread_key_t key, const void *value);

/* Returns the caller's value. */
void *pthread_getspecific(pthread_key_t key);

#ifdef __cplusplus
}
#endif

#endif
