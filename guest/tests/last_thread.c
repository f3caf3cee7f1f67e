/* Main's thread ends first, and another joins it; the last thread's end acts as exit(0): handlers run. */
#include <pthread.h>
#include <stdio.h>
#include <stdlib.h>

static pthread_t first, second;

static void handler(void)
{
    printf("handler\n");
}

static void *joins_main(void *thread)
{
    void *value = NULL;
    int result = pthread_join(*(pthread_t *)thread, &value);
    printf("main ended: %d %s\n", result, (char *)value);
    return "first";
}

static void *joins_first(void *unused)
{
    void *value = NULL;
    (void)unused;
    int result = pthread_join(first, &value);
    printf("another ended: %d %s\n", result, (char *)value);
    return NULL;
}

int main(void)
{
    static pthread_t self;
    self = pthread_self();
    atexit(handler);
    pthread_create(&first, NULL, joins_main, &self);
    pthread_create(&second, NULL, joins_first, NULL);
    printf("main leaves\n");
    pthread_exit("main");
}
