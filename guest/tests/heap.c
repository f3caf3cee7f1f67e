/* Threads allocate, pass on and free memory: a block keeps its content, and they allocate more in all than there is at
   once. */
#include <pthread.h>
#include <semaphore.h>
#include <stdint.h>
#include <stdio.h>
#include <stdlib.h>
#include <string.h>

enum { BLOCKS = 9000, SLOTS = 64, THREADS = 3, KEPT = 200 };

static struct block { unsigned length, mark; unsigned char bytes[]; } *slots[SLOTS];
static sem_t filled, empty;
static pthread_mutex_t mutex = PTHREAD_MUTEX_INITIALIZER;
static unsigned at, sum;

static unsigned next(unsigned *state)
{
    *state ^= *state << 13;
    *state ^= *state >> 17;
    *state ^= *state << 5;
    return *state;
}

static struct block *made(unsigned length, unsigned mark)
{
    struct block *block = malloc(sizeof *block + length);
    if (!block) {
        printf("no memory\n");
        exit(1);
    }
    block->length = length;
    block->mark = mark;
    memset(block->bytes, (int)(mark & 255), length);
    return block;
}

static int whole(const struct block *block)
{
    for (unsigned k = 0; k < block->length; k += 13)
        if (block->bytes[k] != (block->mark & 255))
            return 0;
    return 1;
}

static void *take(void *unused)
{
    unsigned mine = 0, state = 7, kept_bytes = 0;
    struct block *kept[KEPT] = { 0 };
    (void)unused;
    for (;;) {
        sem_wait(&filled);
        pthread_mutex_lock(&mutex);
        struct block *block = slots[at++ % SLOTS];
        pthread_mutex_unlock(&mutex);
        sem_post(&empty);
        if (!block)
            break;
        mine += whole(block) ? block->length + block->mark : 1000000;
        unsigned place = next(&state) & 127;
        if (kept[place]) {
            mine += whole(kept[place]) ? 0 : 1000000;
            free(kept[place]);
        }
        kept[place] = made(place * 3, place);
        free(block);
    }
    for (unsigned k = 0; k < KEPT; k++) {
        kept_bytes += kept[k] != NULL;
        free(kept[k]);
    }
    (void)kept_bytes;
    pthread_mutex_lock(&mutex);
    sum += mine;
    pthread_mutex_unlock(&mutex);
    return NULL;
}

int main(void)
{
    pthread_t thread[THREADS];
    unsigned state = 1, put = 0, bytes = 0;
    sem_init(&filled, 0, 0);
    sem_init(&empty, 0, SLOTS);
    for (int k = 0; k < THREADS; k++)
        pthread_create(&thread[k], NULL, take, NULL);
    for (; put < BLOCKS + THREADS; put++) {
        unsigned length = next(&state) & 1023;
        if ((next(&state) & 31) == 0)
            length *= 8;
        struct block *block = put < BLOCKS ? made(length, put) : NULL;
        bytes += block ? length : 0;
        sem_wait(&empty);
        slots[put % SLOTS] = block;
        sem_post(&filled);
    }
    for (int k = 0; k < THREADS; k++)
        pthread_join(thread[k], NULL);
    printf("blocks %d bytes %u sum %u\n", BLOCKS, bytes, sum);
    return 0;
}
