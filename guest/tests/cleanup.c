/* Handlers that are pushed and popped: which are called, in which order, and before a key's destructor. */
#include <pthread.h>
#include <stdio.h>

static pthread_mutex_t mutex = PTHREAD_MUTEX_INITIALIZER;
static pthread_key_t key;

static void say(void *text)
{
    printf("%s\n", (const char *)text);
}

static void unlocks(void *of)
{
    printf("unlock %d\n", pthread_mutex_unlock(of));
}

static void deep(int levels)
{
    pthread_cleanup_push(say, levels == 2 ? "two" : levels == 1 ? "one" : "none");
    if (levels)
        deep(levels - 1);
    else if (key < 1000)
        pthread_exit("the value");
    pthread_cleanup_pop(1);
}

static void *leaves(void *unused)
{
    pthread_setspecific(key, "destructor");
    pthread_cleanup_push(unlocks, &mutex);
    pthread_mutex_lock(&mutex);
    pthread_cleanup_push(say, "popped");
    pthread_cleanup_pop(1);
    pthread_cleanup_push(say, "never");
    pthread_cleanup_pop(0);
    deep(2);
    pthread_cleanup_pop(0);
    return unused;
}

static void *returns(void *value)
{
    pthread_cleanup_push(say, "popped before the return");
    pthread_cleanup_pop(1);
    return value;
}

int main(void)
{
    pthread_t thread;
    void *value;
    int old = -1;
    pthread_key_create(&key, say);
    pthread_setcancelstate(PTHREAD_CANCEL_DISABLE, &old);
    printf("enabled at first: %d\n", old == PTHREAD_CANCEL_ENABLE);
    pthread_setcanceltype(PTHREAD_CANCEL_ASYNCHRONOUS, &old);
    printf("deferred at first: %d\n", old == PTHREAD_CANCEL_DEFERRED);
    printf("no such state: %d\n", pthread_setcancelstate(77, NULL) != 0);
    pthread_testcancel();
    pthread_create(&thread, NULL, leaves, NULL);
    pthread_join(thread, &value);
    printf("%s\n", (const char *)value);
    pthread_create(&thread, NULL, returns, "returned");
    pthread_join(thread, &value);
    printf("%s\n", (const char *)value);
    pthread_cleanup_push(say, "main's");
    pthread_exit(NULL);
    pthread_cleanup_pop(0);
    return 1;
}
