/* pthread_once, and keys. */
#include <errno.h>
#include <pthread.h>
#include "library.h"

#ifdef IT_CANCEL
static void unlock(void *number)
{
    it_call(IT_CALL_UNLOCK, (unsigned)number, 0);
}

/* If the thread is cancelled in the function, the next caller calls it again. */
static void call_once(void (*function)(void), unsigned mutex)
{
    pthread_cleanup_push(unlock, (void *)mutex);
    function();
    pthread_cleanup_pop(0);
}
#else
static inline void call_once(void (*function)(void), unsigned mutex)
{
    (void)mutex;
    function();
}
#endif

int pthread_once(pthread_once_t *once, void (*function)(void))
{
    if (*once)
        return 0;
    unsigned number = it_number_or_end(IT_MUTEX, once);
    it_ordered_call(IT_CALL_LOCK, number, 0);
    if (!*once) {
        call_once(function, number);
        *once = 1;
    }
    return it_ordered_call(IT_CALL_UNLOCK, number, 0);
}

/* The keys that were created, on a page of their own. A deleted key's number isn't used again, so that no thread has an
   old value for a new key. */
static struct IT_PAGE_ALIGNED {
    unsigned count;
    char deleted[PTHREAD_KEYS_MAX];
    void (*destructor[PTHREAD_KEYS_MAX])(void *);
} keys;

static _Thread_local void *values[PTHREAD_KEYS_MAX];

static int exists(pthread_key_t key)
{
    return key < keys.count && !keys.deleted[key];
}

int pthread_key_create(pthread_key_t *key, void (*destructor)(void *))
{
    int result = EAGAIN;
    it_lock_library();
    if (keys.count < PTHREAD_KEYS_MAX) {
        keys.destructor[keys.count] = destructor;
        *key = keys.count++;
        result = 0;
    }
    it_unlock_library();
    return result;
}

int pthread_key_delete(pthread_key_t key)
{
    int result = EINVAL;
    it_lock_library();
    if (exists(key)) {
        keys.deleted[key] = 1;
        result = 0;
    }
    it_unlock_library();
    return result;
}

/* A destructor may set values again, so this makes as many passes as POSIX requires at least. */
static void run_key_destructors(void)
{
    int called = 1;
    for (unsigned pass = 0; called && pass < PTHREAD_DESTRUCTOR_ITERATIONS; pass++) {
        called = 0;
        for (pthread_key_t key = 0; key < keys.count; key++) {
            void *value = values[key];
            if (!value || !exists(key) || !keys.destructor[key])
                continue;
            called = 1;
            values[key] = 0;
            keys.destructor[key](value);
        }
    }
}

int pthread_setspecific(pthread_key_t key, const void *value)
{
    if (!exists(key))
        return EINVAL;
    values[key] = (void *)value;
    it_self.run_key_destructors = run_key_destructors;
    return 0;
}

void *pthread_getspecific(pthread_key_t key)
{
    return key < PTHREAD_KEYS_MAX ? values[key] : 0;
}
