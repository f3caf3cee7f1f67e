/* Keys: a value for each thread, and destructors at its end, called again if one sets a value. */
#include <pthread.h>
#include <stdint.h>
#include <stdio.h>

static pthread_key_t first, second, third;

static void destroyed_first(void *value)
{
    printf("first %d\n", (int)(uintptr_t)value);
    if ((uintptr_t)value > 8)
        pthread_setspecific(second, (void *)((uintptr_t)value - 1));
}

static void destroyed_second(void *value)
{
    printf("second %d\n", (int)(uintptr_t)value);
    pthread_setspecific(first, (void *)((uintptr_t)value - 1));
}

static void *work(void *argument)
{
    printf("null %d\n", pthread_getspecific(first) == NULL);
    pthread_setspecific(first, argument);
    pthread_setspecific(third, argument);
    printf("mine %d\n", pthread_getspecific(first) == argument);
    return NULL;
}

int main(void)
{
    pthread_key_create(&first, destroyed_first);
    pthread_key_create(&second, destroyed_second);
    pthread_key_create(&third, NULL);
    for (uintptr_t k = 5; k < 11; k += 5) {
        pthread_t thread;
        pthread_create(&thread, NULL, work, (void *)k);
        pthread_join(thread, NULL);
    }
    printf("main's %d\n", pthread_getspecific(third) == NULL);
    return 0;
}
