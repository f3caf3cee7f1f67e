/* Threads that return from their function and threads that call pthread_exit, deep inside; 31 of them, and then no
   more. */
#include <errno.h>
#include <pthread.h>
#include <stdint.h>
#include <stdio.h>

static void *returns(void *argument)
{
    return (void *)((uintptr_t)argument * 3);
}

static void deep(unsigned levels)
{
    if (levels > 100)
        return;
    if (levels == 0)
        pthread_exit((void *)(uintptr_t)77);
    deep(levels - 1);
}

static void *leaves(void *argument)
{
    deep((unsigned)(uintptr_t)argument);
    return NULL;
}

int main(void)
{
    for (uintptr_t k = 0; k < 31; k++) {
        pthread_t thread;
        void *value;
        int result = pthread_create(&thread, NULL, k % 2 ? leaves : returns, (void *)k);
        if (result == 0)
            result = pthread_join(thread, &value);
        printf("%d: %d %d\n", (int)k, result, (int)(uintptr_t)value);
    }
    return 5;
}
