/* Reader-writer locks: readers that hold one together, writers that add under one, and the result of each call. */
#include <errno.h>
#include <pthread.h>
#include <stdio.h>

enum { READERS = 3, WRITERS = 3, TURNS = 40 };

static pthread_rwlock_t lock = PTHREAD_RWLOCK_INITIALIZER;
static pthread_barrier_t all_read;
static int sum, twice;

static void report(const char *what, int result)
{
    printf("%s: %s\n", what, result == 0 ? "0" : result == EBUSY ? "EBUSY" : result == EDEADLK ? "EDEADLK" : "another");
}

/* Reaches the barrier with the lock held to read: no reader may wait for another. No thread wants to write yet. */
static void *reads_beside_others(void *unused)
{
    pthread_rwlock_rdlock(&lock);
    pthread_barrier_wait(&all_read);
    pthread_rwlock_unlock(&lock);
    return unused;
}

static void *reads(void *unused)
{
    for (int k = 0; k < TURNS; k++) {
        pthread_rwlock_rdlock(&lock);
        if (twice != 2 * sum)
            printf("read in the middle of a write\n");
        pthread_rwlock_unlock(&lock);
    }
    return unused;
}

static void *writes(void *unused)
{
    for (int k = 0; k < TURNS; k++) {
        pthread_rwlock_wrlock(&lock);
        sum++;
        twice += 2;
        pthread_rwlock_unlock(&lock);
    }
    return unused;
}

static void *tries(void *what)
{
    int result = pthread_rwlock_trywrlock(&lock);
    report(what, result);
    if (result == 0)
        pthread_rwlock_unlock(&lock);
    return NULL;
}

static void tried_by_another(const char *what)
{
    pthread_t thread;
    pthread_create(&thread, NULL, tries, (void *)what);
    pthread_join(thread, NULL);
}

static void threads_share(void)
{
    pthread_t threads[READERS + WRITERS];
    pthread_barrier_init(&all_read, NULL, READERS);
    for (int k = 0; k < READERS; k++)
        pthread_create(&threads[k], NULL, reads_beside_others, NULL);
    for (int k = 0; k < READERS; k++)
        pthread_join(threads[k], NULL);
    for (int k = 0; k < READERS + WRITERS; k++)
        pthread_create(&threads[k], NULL, k < READERS ? reads : writes, NULL);
    for (int k = 0; k < READERS + WRITERS; k++)
        pthread_join(threads[k], NULL);
    printf("sum %d\n", sum);
}

int main(void)
{
    pthread_rwlockattr_t attributes;
    int kind = -1;
    threads_share();
    tried_by_another("tried while free");
    report("read", pthread_rwlock_rdlock(&lock));
    tried_by_another("tried while read");
    report("read more", pthread_rwlock_rdlock(&lock));
    report("and more", pthread_rwlock_rdlock(&lock));
    report("unlocked", pthread_rwlock_unlock(&lock));
    report("unlocked", pthread_rwlock_unlock(&lock));
    tried_by_another("tried while read once");
    report("unlocked", pthread_rwlock_unlock(&lock));
    tried_by_another("tried while free again");
    report("written", pthread_rwlock_wrlock(&lock));
    tried_by_another("tried while written");
    report("written again", pthread_rwlock_wrlock(&lock));
    report("read by its writer", pthread_rwlock_rdlock(&lock));
    report("unlocked", pthread_rwlock_unlock(&lock));
    report("destroyed", pthread_rwlock_destroy(&lock));
    report("attributes", pthread_rwlockattr_init(&attributes));
    report("shared", pthread_rwlockattr_setpshared(&attributes, PTHREAD_PROCESS_SHARED));
    report("first kind", pthread_rwlockattr_getkind_np(&attributes, &kind));
    printf("kind %d\n", kind == PTHREAD_RWLOCK_DEFAULT_NP);
    report("kind", pthread_rwlockattr_setkind_np(&attributes, PTHREAD_RWLOCK_PREFER_WRITER_NONRECURSIVE_NP));
    report("another kind", pthread_rwlockattr_setkind_np(&attributes, 7));
    report("kept kind", pthread_rwlockattr_getkind_np(&attributes, &kind));
    printf("kind %d\n", kind == PTHREAD_RWLOCK_PREFER_WRITER_NONRECURSIVE_NP);
    report("init", pthread_rwlock_init(&lock, &attributes));
    report("read", pthread_rwlock_rdlock(&lock));
    report("unlocked", pthread_rwlock_unlock(&lock));
    report("destroyed", pthread_rwlock_destroy(&lock));
    report("attributes", pthread_rwlockattr_destroy(&attributes));
    return 0;
}
