/* Shared by the files with functions of attributes. */
#ifndef IT_ATTRIBUTES_H
#define IT_ATTRIBUTES_H

#include <errno.h>
#include <pthread.h>

/* There is one process, so sharing an object between processes changes nothing. */
static inline int it_check_pshared(int value)
{
    return value == PTHREAD_PROCESS_PRIVATE || value == PTHREAD_PROCESS_SHARED ? 0 : EINVAL;
}

/* A function that gets an attribute; `replaceable` is IT_REPLACEABLE or empty. */
#define IT_ATTRIBUTE(replaceable, function, attributes_type, type, field)                                              \
    replaceable int function(const attributes_type *restrict attributes, type *restrict value)                         \
    {                                                                                                                  \
        *value = attributes->field;                                                                                    \
        return 0;                                                                                                      \
    }

/* The functions, except the init, for the attributes of conditions, barriers and reader-writer locks: whether processes
   share an object. */
#define IT_ATTRIBUTES_OF(replaceable, kind)                                                                            \
    replaceable int pthread_##kind##_destroy(pthread_##kind##_t *attributes)                                           \
    {                                                                                                                  \
        (void)attributes;                                                                                              \
        return 0;                                                                                                      \
    }                                                                                                                  \
    replaceable int pthread_##kind##_setpshared(pthread_##kind##_t *attributes, int shared)                            \
    {                                                                                                                  \
        int result = it_check_pshared(shared);                                                                         \
        if (result == 0)                                                                                               \
            attributes->shared = shared;                                                                               \
        return result;                                                                                                 \
    }                                                                                                                  \
    IT_ATTRIBUTE(replaceable, pthread_##kind##_getpshared, pthread_##kind##_t, int, shared)

#endif
