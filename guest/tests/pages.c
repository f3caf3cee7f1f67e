/* Threads that add up pages of the input, one at a time, and count under a recursive mutex and a spin lock: after an
   edit of a byte the steps of its page are executed, and few others. */
#define _GNU_SOURCE
#include <pthread.h>
#include <stdalign.h>
#include <stdio.h>

enum { THREADS = 4, EACH = 2, PAGE = 4096 };

static alignas(PAGE) char text[THREADS * EACH * PAGE];
static struct { alignas(PAGE) unsigned sum[EACH]; } parts[THREADS];
static pthread_mutex_t mutex = PTHREAD_RECURSIVE_MUTEX_INITIALIZER_NP;
static pthread_spinlock_t lock;
static unsigned locked, spun;

static void count(unsigned *what)
{
    pthread_mutex_lock(&mutex);
    ++*what;
    pthread_mutex_unlock(&mutex);
}

static void *adds(void *of)
{
    unsigned number = *(const unsigned *)of;
    for (unsigned k = 0; k < EACH; k++) {
        unsigned sum = 0;
        for (unsigned j = 0; j < PAGE; j++)
            sum += (unsigned char)text[(number * EACH + k) * PAGE + j];
        parts[number].sum[k] = sum;
        pthread_mutex_lock(&mutex);
        count(&locked);
        pthread_mutex_unlock(&mutex);
        pthread_spin_lock(&lock);
        spun++;
        pthread_spin_unlock(&lock);
    }
    return NULL;
}

int main(void)
{
    static const unsigned numbers[THREADS] = { 0, 1, 2, 3 };
    pthread_t threads[THREADS];
    size_t size = fread(text, 1, sizeof text, stdin);
    pthread_spin_init(&lock, PTHREAD_PROCESS_PRIVATE);
    for (int k = 0; k < THREADS; k++)
        pthread_create(&threads[k], NULL, adds, (void *)&numbers[k]);
    for (int k = 0; k < THREADS; k++)
        pthread_join(threads[k], NULL);
    for (int k = 0; k < THREADS * EACH; k++)
        printf("%u\n", parts[k / EACH].sum[k % EACH]);
    printf("%d bytes, locked %u, spun %u\n", (int)size, locked, spun);
    return 0;
}
