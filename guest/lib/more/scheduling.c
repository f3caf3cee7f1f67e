/* Policies, priorities, names and other properties that are kept, so that they can be read back, and have no effect. */
#define _GNU_SOURCE /* for cpu_set_t */
#include <errno.h>
#include <pthread.h>
#include <sched.h>
#include <string.h>
#include "../attributes.h"
#include "../library.h"

enum { STACK_BASE = 0xD0000000, MIN_PRIORITY = 1, MAX_PRIORITY = 99, NAME_SIZE = 16 };

static int is_policy(int policy)
{
    return policy == SCHED_OTHER || policy == SCHED_FIFO || policy == SCHED_RR;
}

static int has_priority(int policy, int priority)
{
    if (policy == SCHED_OTHER)
        return priority == 0;
    return is_policy(policy) && priority >= MIN_PRIORITY && priority <= MAX_PRIORITY;
}

/* ---------------------------------------------------------------------------------------------- attributes ---- */

int pthread_attr_setschedpolicy(pthread_attr_t *attributes, int policy)
{
    if (!is_policy(policy))
        return EINVAL;
    attributes->policy = (short)policy;
    return 0;
}

IT_ATTRIBUTE(, pthread_attr_getschedpolicy, pthread_attr_t, int, policy)

int pthread_attr_setschedparam(pthread_attr_t *restrict attributes, const struct sched_param *restrict parameters)
{
    if (!has_priority(attributes->policy, parameters->sched_priority))
        return EINVAL;
    attributes->priority = (short)parameters->sched_priority;
    return 0;
}

int pthread_attr_getschedparam(const pthread_attr_t *restrict attributes, struct sched_param *restrict parameters)
{
    parameters->sched_priority = attributes->priority;
    return 0;
}

int pthread_attr_setinheritsched(pthread_attr_t *attributes, int inherit)
{
    if (inherit != PTHREAD_INHERIT_SCHED && inherit != PTHREAD_EXPLICIT_SCHED)
        return EINVAL;
    attributes->inherit = (short)inherit;
    return 0;
}

IT_ATTRIBUTE(, pthread_attr_getinheritsched, pthread_attr_t, int, inherit)

/* ---------------------------------------------------------------------------------------------- threads ---- */

/* The properties set for threads. */
static struct IT_PAGE_ALIGNED {
    struct { short policy, priority; } entry[IT_THREADS];
    unsigned char affinity[IT_THREADS]; /* 0: all */
    char name[IT_THREADS][NAME_SIZE];
    int level;
} properties;

int pthread_setschedparam(pthread_t thread, int policy, const struct sched_param *parameters)
{
    if (thread >= IT_THREADS)
        return ESRCH;
    if (!has_priority(policy, parameters->sched_priority))
        return EINVAL;
    properties.entry[thread].policy = (short)policy;
    properties.entry[thread].priority = (short)parameters->sched_priority;
    return 0;
}

int pthread_getschedparam(pthread_t thread, int *restrict policy, struct sched_param *restrict parameters)
{
    if (thread >= IT_THREADS)
        return ESRCH;
    *policy = properties.entry[thread].policy;
    parameters->sched_priority = properties.entry[thread].priority;
    return 0;
}

unsigned it_scheduling_for(const void *pointer)
{
    const pthread_attr_t *attributes = pointer;
    if (attributes && attributes->inherit == PTHREAD_EXPLICIT_SCHED)
        return (unsigned)attributes->policy << 8 | (unsigned)attributes->priority;
    return (unsigned)properties.entry[it_self.number].policy << 8 | (unsigned)properties.entry[it_self.number].priority;
}

void it_set_scheduling(unsigned thread, unsigned scheduling)
{
    properties.entry[thread].policy = (short)(scheduling >> 8);
    properties.entry[thread].priority = (short)(scheduling & 255);
}

int pthread_setschedprio(pthread_t thread, int priority)
{
    struct sched_param parameters = { .sched_priority = priority };
    return thread < IT_THREADS ? pthread_setschedparam(thread, properties.entry[thread].policy, &parameters) : ESRCH;
}

int pthread_setconcurrency(int level)
{
    if (level < 0)
        return EINVAL;
    properties.level = level;
    return 0;
}

int pthread_getconcurrency(void)
{
    return properties.level;
}

int pthread_atfork(void (*prepare)(void), void (*parent)(void), void (*child)(void))
{
    (void)prepare, (void)parent, (void)child;
    return 0;
}

IT_REPLACEABLE int pthread_yield(void)
{
    return sched_yield();
}

IT_REPLACEABLE int pthread_setname_np(pthread_t thread, const char *name)
{
    if (thread >= IT_THREADS)
        return ESRCH;
    if (strlen(name) >= NAME_SIZE)
        return ERANGE;
    strcpy(properties.name[thread], name);
    return 0;
}

IT_REPLACEABLE int pthread_getname_np(pthread_t thread, char *name, size_t size)
{
    extern char *it_words[];
    if (thread >= IT_THREADS)
        return ESRCH;
    const char *from = properties.name[thread][0] ? properties.name[thread] : it_words[1];
    if (size < NAME_SIZE)
        return ERANGE;
    strncpy(name, from, NAME_SIZE - 1);
    name[NAME_SIZE - 1] = 0;
    return 0;
}

IT_REPLACEABLE int pthread_getattr_np(pthread_t thread, pthread_attr_t *attributes)
{
    if (thread >= IT_THREADS)
        return ESRCH;
    pthread_attr_init(attributes);
    attributes->address = (char *)STACK_BASE + thread * IT_STACK;
    attributes->policy = properties.entry[thread].policy;
    attributes->priority = properties.entry[thread].priority;
#ifdef IT_DETACHED
    attributes->detached = (short)it_is_detached(thread);
#endif
    return 0;
}

enum { ALL_PROCESSORS = (1 << IT_PROCESSORS) - 1 };

int it_cpu_count(const cpu_set_t *set)
{
    int count = 0;
    for (int cpu = 0; cpu < CPU_SETSIZE; cpu++)
        count += CPU_ISSET(cpu, set);
    return count;
}

IT_REPLACEABLE int pthread_setaffinity_np(pthread_t thread, size_t size, const cpu_set_t *set)
{
    if (thread >= IT_THREADS)
        return ESRCH;
    if (size < sizeof(unsigned) || !(set->bits[0] & ALL_PROCESSORS))
        return EINVAL;
    properties.affinity[thread] = (unsigned char)(set->bits[0] & ALL_PROCESSORS);
    return 0;
}

IT_REPLACEABLE int pthread_getaffinity_np(pthread_t thread, size_t size, cpu_set_t *set)
{
    if (thread >= IT_THREADS)
        return ESRCH;
    if (size < sizeof(unsigned))
        return EINVAL;
    memset(set, 0, size);
    set->bits[0] = properties.affinity[thread] ? properties.affinity[thread] : ALL_PROCESSORS;
    return 0;
}

/* ---------------------------------------------------------------------------------------------- the process ---- */

static int errno_result(int error)
{
    if (error == 0)
        return 0;
    errno = error;
    return -1;
}

IT_REPLACEABLE int sched_get_priority_min(int policy)
{
    return is_policy(policy) ? policy == SCHED_OTHER ? 0 : MIN_PRIORITY : errno_result(EINVAL);
}

IT_REPLACEABLE int sched_get_priority_max(int policy)
{
    return is_policy(policy) ? policy == SCHED_OTHER ? 0 : MAX_PRIORITY : errno_result(EINVAL);
}

/* For a process these act on main's thread. */
static int is_process(pid_t process)
{
    return process == 0 || process == IT_PROCESS;
}

IT_REPLACEABLE int sched_setscheduler(pid_t process, int policy, const struct sched_param *parameters)
{
    return errno_result(is_process(process) ? pthread_setschedparam(0, policy, parameters) : ESRCH);
}

IT_REPLACEABLE int sched_getscheduler(pid_t process)
{
    return is_process(process) ? properties.entry[0].policy : errno_result(ESRCH);
}

IT_REPLACEABLE int sched_setparam(pid_t process, const struct sched_param *parameters)
{
    return errno_result(is_process(process) ? pthread_setschedprio(0, parameters->sched_priority) : ESRCH);
}

IT_REPLACEABLE int sched_getparam(pid_t process, struct sched_param *parameters)
{
    if (!is_process(process))
        return errno_result(ESRCH);
    parameters->sched_priority = properties.entry[0].priority;
    return 0;
}

IT_REPLACEABLE int sched_setaffinity(pid_t process, size_t size, const cpu_set_t *set)
{
    return errno_result(is_process(process) ? pthread_setaffinity_np(0, size, set) : ESRCH);
}

IT_REPLACEABLE int sched_getaffinity(pid_t process, size_t size, cpu_set_t *set)
{
    return errno_result(is_process(process) ? pthread_getaffinity_np(0, size, set) : ESRCH);
}
