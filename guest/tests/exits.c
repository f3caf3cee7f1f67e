/* A thread calls exit while another waits and main joins: handlers run, the prints are output, and the code is that of
   exit. */
#include <pthread.h>
#include <sched.h>
#include <stdio.h>
#include <stdlib.h>

static pthread_mutex_t mutex = PTHREAD_MUTEX_INITIALIZER;

static void *waits(void *unused)
{
    pthread_mutex_lock(&mutex);
    printf("never\n");
    return unused;
}

static void *leaves(void *unused)
{
    (void)unused;
    printf("leaving");
    exit(7);
}

static void first(void)
{
    printf(", the first handler\n");
}

static void second(void)
{
    printf(", the second handler");
}

__attribute__((destructor)) static void destroyed(void)
{
    printf("destroyed\n");
}

__attribute__((constructor)) static void constructed(void)
{
    printf("constructed\n");
}

int main(void)
{
    pthread_t one, other;
    atexit(first);
    atexit(second);
    printf("main\n");
    pthread_mutex_lock(&mutex);
    pthread_create(&one, NULL, waits, NULL);
    pthread_create(&other, NULL, leaves, NULL);
    pthread_join(one, NULL);
    printf("never\n");
    return 0;
}
