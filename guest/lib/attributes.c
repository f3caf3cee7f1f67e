/* Attributes of threads, mutexes, conditions and barriers. Only a mutex's type and a thread's detached state have an
   effect; a value that would have another effect is refused. */
#include "attributes.h"
#include "library.h"

enum { MIN_PRIORITY = 1, MAX_PRIORITY = 99 }; /* priorities */

/* The result for an attribute of which one value is supported, and another is known to POSIX. */
static int check_supported(int value, int supported, int unsupported)
{
    if (value == supported)
        return 0;
    return value == unsupported ? ENOTSUP : EINVAL;
}

int pthread_attr_init(pthread_attr_t *attributes)
{
    *attributes = (pthread_attr_t){ .stack = IT_STACK };
    return 0;
}

int pthread_attr_destroy(pthread_attr_t *attributes)
{
    (void)attributes;
    return 0;
}

int pthread_attr_setdetachstate(pthread_attr_t *attributes, int state)
{
    if (state != PTHREAD_CREATE_JOINABLE && state != PTHREAD_CREATE_DETACHED)
        return EINVAL;
    attributes->detached = (short)state;
    return 0;
}

IT_ATTRIBUTE(, pthread_attr_getdetachstate, pthread_attr_t, int, detached)

int pthread_attr_setstacksize(pthread_attr_t *restrict attributes, size_t size)
{
    if (size < PTHREAD_STACK_MIN)
        return EINVAL;
    attributes->stack = size;
    return 0;
}

IT_ATTRIBUTE(, pthread_attr_getstacksize, pthread_attr_t, size_t, stack)

int pthread_attr_setstack(pthread_attr_t *attributes, void *address, size_t size)
{
    if (size < PTHREAD_STACK_MIN)
        return EINVAL;
    attributes->address = address;
    attributes->stack = size;
    return 0;
}

int pthread_attr_getstack(const pthread_attr_t *restrict attributes, void **restrict address, size_t *restrict size)
{
    *address = attributes->address;
    *size = attributes->stack;
    return 0;
}

int pthread_attr_setguardsize(pthread_attr_t *attributes, size_t size)
{
    attributes->guard = size;
    return 0;
}

IT_ATTRIBUTE(, pthread_attr_getguardsize, pthread_attr_t, size_t, guard)

int pthread_attr_setscope(pthread_attr_t *attributes, int scope)
{
    (void)attributes;
    return check_supported(scope, PTHREAD_SCOPE_SYSTEM, PTHREAD_SCOPE_PROCESS);
}

int pthread_attr_getscope(const pthread_attr_t *restrict attributes, int *restrict scope)
{
    (void)attributes;
    *scope = PTHREAD_SCOPE_SYSTEM;
    return 0;
}

int pthread_mutexattr_init(pthread_mutexattr_t *attributes)
{
    attributes->type = PTHREAD_MUTEX_DEFAULT;
    attributes->shared = PTHREAD_PROCESS_PRIVATE;
    attributes->protocol = PTHREAD_PRIO_NONE;
    attributes->ceiling = MIN_PRIORITY;
    return 0;
}

/* for PTHREAD_RECURSIVE_MUTEX_INITIALIZER_NP */
__asm__(".globl it_recursive_mutex\n"
        "it_recursive_mutex = 2");
_Static_assert(PTHREAD_MUTEX_RECURSIVE == 2, "as above");

int pthread_mutexattr_destroy(pthread_mutexattr_t *attributes)
{
    (void)attributes;
    return 0;
}

int pthread_mutexattr_settype(pthread_mutexattr_t *attributes, int type)
{
    if (type != PTHREAD_MUTEX_NORMAL && type != PTHREAD_MUTEX_ERRORCHECK && type != PTHREAD_MUTEX_RECURSIVE)
        return EINVAL;
    attributes->type = type;
    return 0;
}

IT_ATTRIBUTE(, pthread_mutexattr_gettype, pthread_mutexattr_t, int, type)

int pthread_mutexattr_setprotocol(pthread_mutexattr_t *attributes, int protocol)
{
    if (protocol != PTHREAD_PRIO_NONE && protocol != PTHREAD_PRIO_INHERIT && protocol != PTHREAD_PRIO_PROTECT)
        return EINVAL;
    attributes->protocol = (signed char)protocol;
    return 0;
}

IT_ATTRIBUTE(, pthread_mutexattr_getprotocol, pthread_mutexattr_t, int, protocol)

int pthread_mutexattr_setprioceiling(pthread_mutexattr_t *attributes, int ceiling)
{
    if (ceiling < MIN_PRIORITY || ceiling > MAX_PRIORITY)
        return EINVAL;
    attributes->ceiling = (signed char)ceiling;
    return 0;
}

IT_ATTRIBUTE(, pthread_mutexattr_getprioceiling, pthread_mutexattr_t, int, ceiling)

int pthread_mutexattr_setpshared(pthread_mutexattr_t *attributes, int shared)
{
    int result = it_check_pshared(shared);
    if (result == 0)
        attributes->shared = (short)shared;
    return result;
}

IT_ATTRIBUTE(, pthread_mutexattr_getpshared, pthread_mutexattr_t, int, shared)

int pthread_condattr_init(pthread_condattr_t *attributes)
{
    attributes->shared = PTHREAD_PROCESS_PRIVATE;
    return 0;
}

IT_ATTRIBUTES_OF(, condattr)

int pthread_barrierattr_init(pthread_barrierattr_t *attributes)
{
    attributes->shared = PTHREAD_PROCESS_PRIVATE;
    return 0;
}

IT_ATTRIBUTES_OF(, barrierattr)
