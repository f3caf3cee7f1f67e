/* Attributes and calls that have no effect here, but are kept and can be read; names of threads, pthread_atfork. */
#define _GNU_SOURCE
#include <errno.h>
#include <pthread.h>
#include <sched.h>
#include <stdio.h>
#include <stdlib.h>
#include <string.h>

static void report(const char *what, int result)
{
    printf("%s: %s\n", what, result == 0 ? "0" : result == EINVAL ? "EINVAL" : result == ERANGE ? "ERANGE" : "another");
}

static void *inherits(void *unused)
{
    struct sched_param parameters = { .sched_priority = 7 };
    int policy = -1;
    pthread_getschedparam(pthread_self(), &policy, &parameters);
    printf("of a thread: %d %d\n", policy == SCHED_OTHER, parameters.sched_priority);
    return unused;
}

static void *works(void *unused)
{
    pthread_attr_t attributes;
    void *address;
    size_t size;
    char local;
    report("attributes of a thread", pthread_getattr_np(pthread_self(), &attributes));
    pthread_attr_getstack(&attributes, &address, &size);
    printf("a local variable is on its stack: %d\n", &local >= (char *)address && &local < (char *)address + size);
    pthread_attr_destroy(&attributes);
    return unused;
}

static void nothing(void)
{
    printf("never\n");
}

static void attributes_of_threads(void)
{
    pthread_attr_t attributes;
    struct sched_param parameters = { .sched_priority = 0 };
    pthread_t thread;
    int number = -1;
    size_t size = 0;
    void *stack = aligned_alloc(65536, 262144), *address;
    pthread_attr_init(&attributes);
    pthread_attr_getschedpolicy(&attributes, &number);
    printf("other: %d\n", number == SCHED_OTHER);
    pthread_attr_getinheritsched(&attributes, &number);
    printf("inherited: %d\n", number == PTHREAD_INHERIT_SCHED);
    report("no such policy", pthread_attr_setschedpolicy(&attributes, 77));
    report("priority 0 of other", pthread_attr_setschedparam(&attributes, &parameters));
    parameters.sched_priority = 5;
    report("priority 5 of other", pthread_attr_setschedparam(&attributes, &parameters));
    report("fifo", pthread_attr_setschedpolicy(&attributes, SCHED_FIFO));
    report("priority 5 of fifo", pthread_attr_setschedparam(&attributes, &parameters));
    parameters.sched_priority = 100;
    report("priority 100 of fifo", pthread_attr_setschedparam(&attributes, &parameters));
    pthread_attr_getschedparam(&attributes, &parameters);
    printf("priority %d\n", parameters.sched_priority);
    report("explicit", pthread_attr_setinheritsched(&attributes, PTHREAD_EXPLICIT_SCHED));
    report("inherit", pthread_attr_setinheritsched(&attributes, PTHREAD_INHERIT_SCHED));
    report("no such one", pthread_attr_setinheritsched(&attributes, 77));
    report("a stack of 1 MiB", pthread_attr_setstacksize(&attributes, 1048576));
    pthread_attr_getstacksize(&attributes, &size);
    printf("size %d\n", (int)size);
    report("a small stack", pthread_attr_setstacksize(&attributes, 1000));
    report("a guard", pthread_attr_setguardsize(&attributes, 8192));
    pthread_attr_getguardsize(&attributes, &size);
    printf("size %d\n", (int)size);
    number = pthread_create(&thread, &attributes, works, NULL);
    report("join", pthread_join(thread, NULL));
    report("create", number);
    report("a stack", pthread_attr_setstack(&attributes, stack, 262144));
    pthread_attr_getstack(&attributes, &address, &size);
    printf("it is so: %d %d\n", address == stack, (int)size);
    number = pthread_create(&thread, &attributes, works, NULL);
    report("join", pthread_join(thread, NULL));
    report("create", number);
    free(stack);
}

int main(void)
{
    struct sched_param parameters = { .sched_priority = 7 };
    int policy = -1;
    char name[16] = "";
    attributes_of_threads();
    report("policy of main", pthread_getschedparam(pthread_self(), &policy, &parameters));
    printf("%d %d\n", policy == SCHED_OTHER, parameters.sched_priority);
    report("set again", pthread_setschedparam(pthread_self(), SCHED_OTHER, &parameters));
    report("no such policy", pthread_setschedparam(pthread_self(), 77, &parameters));
    printf("other %d to %d\n", sched_get_priority_min(SCHED_OTHER), sched_get_priority_max(SCHED_OTHER));
    printf("fifo %d to %d\n", sched_get_priority_min(SCHED_FIFO), sched_get_priority_max(SCHED_FIFO));
    printf("none %d\n", sched_get_priority_min(77));
    pthread_t thread;
    pthread_create(&thread, NULL, inherits, NULL);
    pthread_join(thread, NULL);
    report("concurrency", pthread_setconcurrency(4));
    printf("%d\n", pthread_getconcurrency());
    report("below 0", pthread_setconcurrency(-1));
    report("atfork", pthread_atfork(nothing, nothing, nothing));
    report("named", pthread_setname_np(pthread_self(), "a name"));
    report("its name", pthread_getname_np(pthread_self(), name, sizeof name));
    printf("%s\n", name);
    cpu_set_t all, one;
    CPU_ZERO(&one);
    report("processors", pthread_getaffinity_np(pthread_self(), sizeof all, &all));
    printf("some: %d\n", CPU_COUNT(&all) > 0);
    printf("none: %d\n", sched_setaffinity(0, sizeof one, &one));
    int first = 0; /* of those that the program may run on; natively that may not be processor 0 */
    while (!CPU_ISSET(first, &all))
        first++;
    CPU_SET(first, &one);
    printf("one: %d\n", sched_setaffinity(0, sizeof one, &one));
    sched_getaffinity(0, sizeof all, &all);
    printf("it is so: %d\n", CPU_EQUAL(&all, &one));
    report("a long name", pthread_setname_np(pthread_self(), "a name of sixteen and more"));
    return 0;
}
