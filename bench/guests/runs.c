/* Run-length encoding by blocks of 2,048 bytes. Three threads take the next block from a counter under a mutex, encode it as pairs (count,
   byte) into the block's own page, and note its length; main joins them and puts the blocks out, in order. */
#include "ithreads.h"

#ifndef BLOCKS
#define BLOCKS 32
#endif

enum { BLOCK = 2048, WORKERS = 3, COUNTER = 4 };

static unsigned next;
static unsigned lengths[BLOCKS];
static unsigned char encoded[BLOCKS][IT_PAGE] IT_PAGE_ALIGNED;

static unsigned encode(const unsigned char *from, unsigned count, unsigned char *to)
{
    unsigned char *start = to;
    for (unsigned i = 0; i < count;) {
        unsigned run = 1;
        while (i + run < count && run < 255 && from[i + run] == from[i])
            run++;
        *to++ = (unsigned char)run;
        *to++ = from[i];
        i += run;
    }
    return (unsigned)(to - start);
}

static unsigned worker(unsigned unused)
{
    unsigned length = it_input_length(), done = unused;
    for (;;) {
        it_mutex_lock(COUNTER);
        unsigned block = next;
        if (block < BLOCKS)
            next = block + 1;
        it_mutex_unlock(COUNTER);
        if (block >= BLOCKS || block * BLOCK >= length)
            return done;
        unsigned count = length - block * BLOCK;
        lengths[block] = encode(it_input() + block * BLOCK, count < BLOCK ? count : BLOCK, encoded[block]);
        done++;
    }
}

int main(void)
{
    unsigned total = 0;
    for (unsigned w = 0; w < WORKERS; w++)
        it_thread_create(worker, 0);
    for (unsigned w = 0; w < WORKERS; w++) {
        unsigned done;
        it_thread_join(w + 1, &done);
        total += done;
    }
    for (unsigned block = 0; block < total; block++)
        it_put(encoded[block], lengths[block]);
    return 0;
}
