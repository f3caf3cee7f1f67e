/* C11 threads. */
#include <stdio.h>
#include <threads.h>

static mtx_t mutex, again;
static cnd_t condition;
static tss_t key;
static once_flag once = ONCE_FLAG_INIT;
static int sum, arrived;
static thread_local int own = 5;

static void report(const char *what, int result)
{
    printf("%s: %s\n", what, result == thrd_success ? "success" : result == thrd_busy ? "busy"
                             : result == thrd_error ? "error" : "another");
}

static void says_once(void)
{
    printf("once\n");
}

static void leaves(void *value)
{
    mtx_lock(&mutex);
    sum += *(int *)value;
    mtx_unlock(&mutex);
}

static int works(void *argument)
{
    int number = *(int *)argument;
    call_once(&once, says_once);
    own += number;
    tss_set(key, argument);
    mtx_lock(&again);
    mtx_lock(&again);
    mtx_lock(&mutex);
    sum += own;
    arrived++;
    cnd_broadcast(&condition);
    while (arrived < 4)
        cnd_wait(&condition, &mutex);
    mtx_unlock(&mutex);
    return number;
}

static int exits(void *argument)
{
    mtx_lock(&again);
    mtx_unlock(&again);
    thrd_exit(*(int *)argument);
}

static int tries(void *unused)
{
    (void)unused;
    report("tried by another", mtx_trylock(&mutex));
    report("tried by another", mtx_trylock(&again));
    return thrd_equal(thrd_current(), thrd_current()) != 0;
}

static int alone(void *unused)
{
    (void)unused;
    report("detach", thrd_detach(thrd_current()));
    mtx_lock(&mutex);
    arrived = 9;
    cnd_signal(&condition);
    mtx_unlock(&mutex);
    return 0;
}

int main(void)
{
    static int numbers[4] = { 1, 10, 100, 1000 };
    thrd_t threads[4];
    int value = -1, values = 0;
    report("plain", mtx_init(&mutex, mtx_plain));
    report("recursive", mtx_init(&again, mtx_plain | mtx_recursive));
    report("condition", cnd_init(&condition));
    report("key", tss_create(&key, leaves));
    printf("at first null: %d\n", tss_get(key) == NULL);
    report("lock", mtx_lock(&again));
    report("lock again", mtx_lock(&again));
    report("tried", mtx_trylock(&again));
    report("unlock", mtx_unlock(&again));
    mtx_lock(&mutex);
    int created = thrd_create(&threads[0], tries, NULL);
    report("join", thrd_join(threads[0], &value));
    report("create", created);
    printf("value %d\n", value);
    mtx_unlock(&mutex);
    mtx_unlock(&again);
    mtx_unlock(&again);
    for (int k = 0; k < 4; k++)
        thrd_create(&threads[k], exits, &numbers[k]);
    for (int k = 0; k < 4; k++) {
        thrd_join(threads[k], &value);
        values += value;
    }
    printf("values %d\n", values);
    mtx_destroy(&again);
    mtx_init(&again, mtx_recursive | mtx_timed);
    thrd_create(&threads[0], works, &numbers[0]);
    thrd_yield();
    mtx_lock(&mutex);
    while (arrived < 1)
        cnd_wait(&condition, &mutex);
    arrived = 4;
    cnd_broadcast(&condition);
    mtx_unlock(&mutex);
    thrd_join(threads[0], NULL);
    printf("sum %d, own %d\n", sum, own);
    thrd_create(&threads[0], alone, NULL);
    mtx_lock(&mutex);
    while (arrived < 9)
        cnd_wait(&condition, &mutex);
    mtx_unlock(&mutex);
    tss_delete(key);
    cnd_destroy(&condition);
    mtx_destroy(&mutex);
    printf("end\n");
    return 0;
}
