/* The clock of a condition's attributes: it is kept, so that it can be read back. */
#include "../attributes.h"
#include "counted.h"

int __real_pthread_condattr_init(pthread_condattr_t *attributes);
int __wrap_pthread_condattr_init(pthread_condattr_t *attributes)
{
    attributes->clock = CLOCK_REALTIME;
    return __real_pthread_condattr_init(attributes);
}

IT_REPLACEABLE int pthread_condattr_setclock(pthread_condattr_t *attributes, clockid_t clock)
{
    if (clock != CLOCK_REALTIME && clock != CLOCK_MONOTONIC)
        return EINVAL;
    attributes->clock = clock;
    return 0;
}

IT_ATTRIBUTE(IT_REPLACEABLE, pthread_condattr_getclock, pthread_condattr_t, clockid_t, clock)
