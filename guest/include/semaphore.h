/* POSIX semaphores for guests with a C library: the part of POSIX.1-2017 <semaphore.h> that this machine has. Each
   function is that of the same name in POSIX.1-2017, System Interfaces. It returns 0, or -1 and sets errno. A program
   has at most 63 semaphores at once. Waits with a time exist only with `guest/build --time counted`. */
#ifndef _SEMAPHORE_H
#define _SEMAPHORE_H

#include <time.h>

#ifdef __cplusplus
extern "C" {
#endif

typedef struct { int unused; } sem_t;

#define SEM_VALUE_MAX 2147483647
#define SEM_FAILED ((sem_t *)0)

#ifndef _POSIX_SEMAPHORES
#define _POSIX_SEMAPHORES 200809L
#endif

/* Makes a semaphore with a value. EINVAL if the value is above SEM_VALUE_MAX; ENOSPC if 63 are in use; EBUSY if a
   thread waits for it. There is one process, so `shared` has no effect. */
int sem_init(sem_t *semaphore, int shared, unsigned value);

/* EBUSY if a thread waits for it. */
int sem_destroy(sem_t *semaphore);

/* Waits until the value is above 0, then subtracts 1. */
int sem_wait(sem_t *semaphore);

/* Yields until it can subtract 1; only with `guest/build --time counted`. ETIMEDOUT if the time has passed; EINVAL if
   it isn't a valid time. All clocks have the same time. */
int sem_timedwait(sem_t *__restrict semaphore, const struct timespec *__restrict time);
int sem_clockwait(sem_t *__restrict semaphore, clockid_t clock, const struct timespec *__restrict time);

/* Subtracts 1 if the value is above 0. EAGAIN if it is 0. */
int sem_trywait(sem_t *semaphore);

/* Wakes the first waiting thread, or else adds 1. EOVERFLOW if the value is SEM_VALUE_MAX. */
int sem_post(sem_t *semaphore);

/* *value is 0 if threads wait. The machine can't report a value: in a program that calls this, a semaphore is made of a
   mutex and a condition, and each wait and post takes two or three calls. */
int sem_getvalue(sem_t *__restrict semaphore, int *__restrict value);

/* Opens the semaphore of this name, which belongs to the process. With O_CREAT of fcntl.h, mode and value follow the
   flags, and a semaphore is created if there is none. Returns SEM_FAILED on errors: ENOENT if there is none; EEXIST if
   there is one and O_EXCL is set; EINVAL if the name is empty or has a / inside, or if the value is above
   SEM_VALUE_MAX; ENAMETOOLONG if the name has more than 251 bytes; ENOSPC if 63 are in use. */
sem_t *sem_open(const char *name, int flags, ...);

/* Each open needs one close. EINVAL if it isn't open. */
int sem_close(sem_t *semaphore);

/* Removes the name; threads that have the semaphore open can still use it. ENOENT if there is none. */
int sem_unlink(const char *name);

#ifdef __cplusplus
}
#endif

#endif
