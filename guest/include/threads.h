/* C11 threads, <threads.h>: each function is based on one of pthread.h, where the limits are. thrd_sleep, mtx_timedlock
   and cnd_timedwait, which wait for a time, exist only with `guest/build --time counted`. */
#ifndef IT_THREADS_H
#define IT_THREADS_H

#include <pthread.h>
#include <time.h>

#ifdef __cplusplus
extern "C" {
#else
#define thread_local _Thread_local
#endif

#define ONCE_FLAG_INIT PTHREAD_ONCE_INIT
#define TSS_DTOR_ITERATIONS PTHREAD_DESTRUCTOR_ITERATIONS

typedef pthread_t thrd_t;
typedef pthread_mutex_t mtx_t;
typedef pthread_cond_t cnd_t;
typedef pthread_key_t tss_t;
typedef pthread_once_t once_flag;
typedef int (*thrd_start_t)(void *);
typedef void (*tss_dtor_t)(void *);

enum { thrd_success, thrd_busy, thrd_error, thrd_nomem, thrd_timedout };

enum { mtx_plain = 0, mtx_recursive = 1, mtx_timed = 2 };

/* thrd_error if there are 32 threads. */
int thrd_create(thrd_t *thread, thrd_start_t function, void *argument);
int thrd_equal(thrd_t one, thrd_t other);
thrd_t thrd_current(void);
void thrd_yield(void);
int thrd_sleep(const struct timespec *length, struct timespec *rest);
void thrd_exit(int value) __attribute__((__noreturn__));
int thrd_detach(thrd_t thread);
int thrd_join(thrd_t thread, int *value);

/* thrd_error if 63 are in use. */
int mtx_init(mtx_t *mutex, int type);
void mtx_destroy(mtx_t *mutex);

/* thrd_error if the caller already holds it and it isn't recursive. */
int mtx_lock(mtx_t *mutex);

/* thrd_busy if a thread holds it. */
int mtx_trylock(mtx_t *mutex);

/* thrd_timedout if the time has passed. */
int mtx_timedlock(mtx_t *__restrict mutex, const struct timespec *__restrict time);

/* thrd_error if the caller doesn't hold it. */
int mtx_unlock(mtx_t *mutex);

int cnd_init(cnd_t *condition);
void cnd_destroy(cnd_t *condition);
int cnd_signal(cnd_t *condition);
int cnd_broadcast(cnd_t *condition);
int cnd_wait(cnd_t *condition, mtx_t *mutex);

/* thrd_timedout if the time has passed. */
int cnd_timedwait(cnd_t *__restrict condition, mtx_t *__restrict mutex, const struct timespec *__restrict time);

/* thrd_error if 128 keys have been created, deleted ones included. */
int tss_create(tss_t *key, tss_dtor_t destructor);
void tss_delete(tss_t key);
void *tss_get(tss_t key);
int tss_set(tss_t key, void *value);

void call_once(once_flag *once, void (*function)(void));

#ifdef __cplusplus
}
#endif

#endif
