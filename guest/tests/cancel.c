/* Threads that are cancelled while they wait, compute, or may not be cancelled. */
#include <pthread.h>
#include <sched.h>
#include <semaphore.h>
#include <stdio.h>

static pthread_mutex_t mutex = PTHREAD_MUTEX_INITIALIZER;
static pthread_cond_t condition = PTHREAD_COND_INITIALIZER, ready = PTHREAD_COND_INITIALIZER;
static pthread_once_t once = PTHREAD_ONCE_INIT;
static pthread_key_t key;
static sem_t semaphore, other, begun;
static int waiters, once_called, released;
static pthread_t waited_for;

static void say(void *text)
{
    printf("%s\n", (const char *)text);
}

static void unlocks(void *text)
{
    printf("%s: %d\n", (const char *)text, pthread_mutex_unlock(&mutex));
}

static void *waits_for_condition(void *unused)
{
    pthread_setspecific(key, "destructor");
    pthread_mutex_lock(&mutex);
    pthread_cleanup_push(unlocks, "unlocked");
    waiters++;
    pthread_cond_signal(&ready);
    while (!released)
        pthread_cond_wait(&condition, &mutex);
    pthread_cleanup_pop(1);
    return unused;
}

static void *waits_for_semaphore(void *unused)
{
    pthread_cleanup_push(say, "gives up the semaphore");
    sem_post(&begun);
    sem_wait(&semaphore);
    pthread_cleanup_pop(0);
    return unused;
}

static void *joins(void *unused)
{
    pthread_cleanup_push(say, "gives up the join");
    sem_post(&begun);
    pthread_join(waited_for, NULL);
    pthread_cleanup_pop(0);
    return unused;
}

static void *cancel_disabled(void *unused)
{
    int old;
    pthread_setcancelstate(PTHREAD_CANCEL_DISABLE, &old);
    printf("was enabled: %d\n", old == PTHREAD_CANCEL_ENABLE);
    sem_post(&begun);
    sem_wait(&semaphore);
    printf("has the semaphore\n");
    pthread_testcancel();
    pthread_cleanup_push(say, "ends at the test");
    pthread_setcancelstate(PTHREAD_CANCEL_ENABLE, &old);
    printf("was disabled: %d\n", old == PTHREAD_CANCEL_DISABLE);
    pthread_testcancel();
    pthread_cleanup_pop(0);
    return unused;
}

static void *tests(void *unused)
{
    sem_post(&begun);
    for (;;)
        pthread_testcancel();
    return unused;
}

static void *yields(void *unused)
{
    pthread_setcanceltype(PTHREAD_CANCEL_ASYNCHRONOUS, NULL);
    sem_post(&begun);
    for (;;)
        sched_yield();
    return unused;
}

static void *itself(void *unused)
{
    int old;
    pthread_cleanup_push(say, "cancels itself");
    pthread_setcanceltype(PTHREAD_CANCEL_ASYNCHRONOUS, &old);
    printf("was deferred: %d\n", old == PTHREAD_CANCEL_DEFERRED);
    pthread_cancel(pthread_self());
    pthread_testcancel();
    pthread_cleanup_pop(0);
    return unused;
}

static void *deferred(void *unused)
{
    pthread_cancel(pthread_self());
    printf("goes on to the wait\n");
    sem_wait(&semaphore);
    printf("never\n");
    return unused;
}

static void first(void)
{
    if (++once_called == 1) {
        sem_post(&begun);
        sem_wait(&semaphore);
    }
}

static void *calls_once(void *unused)
{
    pthread_once(&once, first);
    return unused;
}

static void *ends(void *unused)
{
    return unused;
}

static void cancel(const char *what, pthread_t thread)
{
    void *value;
    int result = pthread_cancel(thread), joined = pthread_join(thread, &value);
    printf("%s: %d %d %d\n", what, result, joined, value == PTHREAD_CANCELED);
}

static pthread_t create(void *(*function)(void *))
{
    pthread_t thread;
    pthread_create(&thread, NULL, function, NULL);
    return thread;
}

static pthread_t begin(void *(*function)(void *))
{
    pthread_t thread = create(function);
    sem_wait(&begun);
    return thread;
}

static void await(int count)
{
    pthread_mutex_lock(&mutex);
    while (waiters < count)
        pthread_cond_wait(&ready, &mutex);
    pthread_mutex_unlock(&mutex);
}

static void conditions(void)
{
    void *value;
    pthread_t one = create(waits_for_condition), two;
    await(1);
    two = create(waits_for_condition);
    await(2);
    cancel("the first at the condition", one);
    pthread_mutex_lock(&mutex);
    released = 1;
    pthread_cond_signal(&condition);
    pthread_mutex_unlock(&mutex);
    pthread_join(two, &value);
    printf("the second goes on: %d\n", value == NULL);
}

int main(void)
{
    void *value;
    int number;
    sem_init(&semaphore, 0, 0);
    sem_init(&other, 0, 2);
    sem_init(&begun, 0, 0);
    pthread_key_create(&key, say);
    conditions();
    cancel("at a semaphore", begin(waits_for_semaphore));
    waited_for = begin(waits_for_semaphore);
    cancel("at a join", begin(joins));
    cancel("who was joined", waited_for);
    pthread_t thread = begin(cancel_disabled);
    printf("cancel: %d\n", pthread_cancel(thread));
    sem_post(&semaphore);
    pthread_join(thread, &value);
    printf("later: %d\n", value == PTHREAD_CANCELED);
    cancel("in a loop of tests", begin(tests));
    cancel("in a loop of yields", begin(yields));
    thread = create(itself);
    pthread_join(thread, &value);
    printf("itself: %d\n", value == PTHREAD_CANCELED);
    thread = create(deferred);
    pthread_join(thread, &value);
    printf("deferred: %d\n", value == PTHREAD_CANCELED);
    cancel("in a call once", begin(calls_once));
    pthread_once(&once, first);
    pthread_once(&once, first);
    printf("called: %d\n", once_called);
    thread = create(ends);
    pthread_join(thread, &value);
    printf("not cancelled: %d\n", value == NULL);
    sem_getvalue(&semaphore, &number);
    printf("value %d\n", number);
    printf("%d %d ", sem_trywait(&other), sem_trywait(&other));
    printf("%d\n", sem_trywait(&other));
    printf("destroyed: %d\n", sem_destroy(&other));
    return 0;
}
