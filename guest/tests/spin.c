/* Spin locks: threads that add under one, and the result of each call. */
#include <errno.h>
#include <pthread.h>
#include <stdio.h>

static pthread_spinlock_t lock;
static int sum;

static void report(const char *what, int result)
{
    printf("%s: %s\n", what, result == 0 ? "0" : result == EBUSY ? "EBUSY" : "another");
}

static void *adds(void *unused)
{
    for (int k = 0; k < 50; k++) {
        pthread_spin_lock(&lock);
        sum++;
        pthread_spin_unlock(&lock);
    }
    return unused;
}

static void *tries(void *unused)
{
    report("tried by another", pthread_spin_trylock(&lock));
    return unused;
}

int main(void)
{
    pthread_t threads[4];
    report("init", pthread_spin_init(&lock, PTHREAD_PROCESS_PRIVATE));
    for (int k = 0; k < 4; k++)
        pthread_create(&threads[k], NULL, adds, NULL);
    for (int k = 0; k < 4; k++)
        pthread_join(threads[k], NULL);
    printf("sum %d\n", sum);
    report("tried", pthread_spin_trylock(&lock));
    report("tried again", pthread_spin_trylock(&lock));
    pthread_create(&threads[0], NULL, tries, NULL);
    pthread_join(threads[0], NULL);
    report("unlock", pthread_spin_unlock(&lock));
    report("destroyed", pthread_spin_destroy(&lock));
    report("init", pthread_spin_init(&lock, PTHREAD_PROCESS_SHARED));
    report("lock", pthread_spin_lock(&lock));
    report("unlock", pthread_spin_unlock(&lock));
    report("destroyed", pthread_spin_destroy(&lock));
    return 0;
}
