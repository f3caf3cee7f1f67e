/* Weak keys: which RSA moduli share a prime with another one of their batch. Euclid's algorithm finds that prime, which
   breaks both keys (Heninger and others, Mining Your Ps and Qs, 2012). A page of the input is a batch of 512 lines,
   each with a modulus of seven hexadecimal digits: 28 bits, where real ones have 2048. For each batch with such a pair
   it prints a line.

   examples/posix/make-keys >keys.in; cc -pthread -O2 weak_keys.c && ./a.out <keys.in

   Layout: a block is a batch, with its numbers on a page of its own, and a call (sched_yield) follows each block. The
   results go to a page of the worker, which only stores to it. */
#include <pthread.h>
#include <sched.h>
#include <stdalign.h>
#include <stdint.h>
#include <stdio.h>
#include <stdlib.h>

enum { PAGE = 4096, MOST_BATCHES = 256, WORKERS = 4, LINE = 8, KEYS = PAGE / LINE };

struct batch {
    alignas(PAGE) uint32_t keys; /* 0 behind the input's end */
    uint32_t modulus[KEYS];
};

/* The number of pairs of a batch that share a prime, and the lines and the prime of the first pair. */
struct found {
    uint32_t pairs, first, second, prime;
};

struct worker {
    alignas(PAGE) struct found found[MOST_BATCHES / WORKERS];
};

static alignas(PAGE) unsigned char input[MOST_BATCHES][KEYS][LINE];
static struct batch batches[MOST_BATCHES];
static struct worker workers[WORKERS];

static _Noreturn void give_up(const char *why)
{
    fprintf(stderr, "weak_keys: %s\n", why);
    exit(EXIT_FAILURE);
}

static void read_input(void)
{
    size_t left = fread(input, LINE, MOST_BATCHES * KEYS, stdin);
    if (getchar() != EOF)
        give_up("the input is too long");
    for (unsigned b = 0; left > 0; b++) {
        size_t here = left < KEYS ? left : KEYS;
        batches[b].keys = here;
        left -= here;
    }
}

static uint32_t number(const unsigned char *digit)
{
    uint32_t n = 0;
    for (unsigned k = 0; k < LINE - 1; k++)
        n = 16 * n + (digit[k] <= '9' ? digit[k] - '0' : digit[k] - 'a' + 10) % 16u;
    return n;
}

static uint32_t common_divisor(uint32_t a, uint32_t b)
{
    while (b) {
        uint32_t left = a % b;
        a = b;
        b = left;
    }
    return a;
}

static __attribute__((noinline)) void search(unsigned b, struct found *found)
{
    struct batch *batch = &batches[b];
    struct found here = { 0 };
    for (unsigned k = 0; k < batch->keys; k++)
        batch->modulus[k] = number(input[b][k]);
    for (unsigned k = 1; k < batch->keys; k++)
        for (unsigned other = 0; other < k; other++) {
            uint32_t prime = common_divisor(batch->modulus[other], batch->modulus[k]);
            if (prime > 1 && here.pairs++ == 0) {
                here.first = other + 1;
                here.second = k + 1;
                here.prime = prime;
            }
        }
    *found = here;
}

static void *work(void *argument)
{
    unsigned worker = (unsigned)(uintptr_t)argument;
    for (unsigned b = worker; b < MOST_BATCHES && batches[b].keys; b += WORKERS) {
        search(b, &workers[worker].found[b / WORKERS]);
        sched_yield();
    }
    return NULL;
}

static void print_found(void)
{
    for (unsigned b = 0; b < MOST_BATCHES && batches[b].keys; b++) {
        const struct found *found = &workers[b % WORKERS].found[b / WORKERS];
        if (found->pairs)
            printf("batch %u: %u weak, first lines %u and %u by %u\n", b + 1, (unsigned)found->pairs,
                   (unsigned)found->first, (unsigned)found->second, (unsigned)found->prime);
    }
}

int main(void)
{
    pthread_t threads[WORKERS];
    read_input();
    for (unsigned w = 0; w < WORKERS; w++)
        if (pthread_create(&threads[w], NULL, work, (void *)(uintptr_t)w) != 0)
            give_up("a thread can't be created");
    for (unsigned w = 0; w < WORKERS; w++)
        pthread_join(threads[w], NULL);
    print_found();
    return EXIT_SUCCESS;
}
