/* C11 threads, based on those of POSIX. */
#include <errno.h>
#include <threads.h>
#include "../library.h"

/* A result of pthread.h as threads.h defines it. */
static int thrd_result(int result)
{
    return result == 0 ? thrd_success : result == EBUSY ? thrd_busy : thrd_error;
}

/* A thread's value is in a register, whether it is an int or a pointer. */
IT_REPLACEABLE int thrd_create(thrd_t *thread, thrd_start_t function, void *argument)
{
    return thrd_result(pthread_create(thread, NULL, (void *(*)(void *))(void *)function, argument));
}

IT_RETURNS(int, thrd_equal, (thrd_t one, thrd_t other), one == other)
IT_RETURNS(thrd_t, thrd_current, (void), pthread_self())

IT_REPLACEABLE void thrd_yield(void)
{
    sched_yield();
}

IT_REPLACEABLE void thrd_exit(int value)
{
    pthread_exit((void *)value);
}

IT_RETURNS(int, thrd_detach, (thrd_t thread), thrd_result(pthread_detach(thread)))

IT_REPLACEABLE int thrd_join(thrd_t thread, int *value)
{
    void *returned;
    int result = pthread_join(thread, &returned);
    if (result == 0 && value)
        *value = (int)returned;
    return thrd_result(result);
}

/* ---------------------------------------------------------------------------------------------- mutexes ---- */

IT_REPLACEABLE int mtx_init(mtx_t *mutex, int type)
{
    pthread_mutexattr_t attributes;
    if (type & ~(mtx_recursive | mtx_timed))
        return thrd_error;
    pthread_mutexattr_init(&attributes);
    pthread_mutexattr_settype(&attributes, type & mtx_recursive ? PTHREAD_MUTEX_RECURSIVE : PTHREAD_MUTEX_DEFAULT);
    return thrd_result(pthread_mutex_init(mutex, &attributes));
}

IT_REPLACEABLE void mtx_destroy(mtx_t *mutex)
{
    pthread_mutex_destroy(mutex);
}

IT_RETURNS(int, mtx_lock, (mtx_t *mutex), thrd_result(pthread_mutex_lock(mutex)))
IT_RETURNS(int, mtx_trylock, (mtx_t *mutex), thrd_result(pthread_mutex_trylock(mutex)))
IT_RETURNS(int, mtx_unlock, (mtx_t *mutex), thrd_result(pthread_mutex_unlock(mutex)))

/* ---------------------------------------------------------------------------------------------- conditions ---- */

IT_RETURNS(int, cnd_init, (cnd_t *condition), thrd_result(pthread_cond_init(condition, NULL)))

IT_REPLACEABLE void cnd_destroy(cnd_t *condition)
{
    pthread_cond_destroy(condition);
}

IT_RETURNS(int, cnd_signal, (cnd_t *condition), thrd_result(pthread_cond_signal(condition)))
IT_RETURNS(int, cnd_broadcast, (cnd_t *condition), thrd_result(pthread_cond_broadcast(condition)))
IT_RETURNS(int, cnd_wait, (cnd_t *condition, mtx_t *mutex), thrd_result(pthread_cond_wait(condition, mutex)))

/* ---------------------------------------------------------------------------------------------- keys, and once ---- */

IT_RETURNS(int, tss_create, (tss_t *key, tss_dtor_t destructor), thrd_result(pthread_key_create(key, destructor)))

IT_REPLACEABLE void tss_delete(tss_t key)
{
    pthread_key_delete(key);
}

IT_RETURNS(void *, tss_get, (tss_t key), pthread_getspecific(key))
IT_RETURNS(int, tss_set, (tss_t key, void *value), thrd_result(pthread_setspecific(key, value)))

IT_REPLACEABLE void call_once(once_flag *once, void (*function)(void))
{
    pthread_once(once, function);
}
