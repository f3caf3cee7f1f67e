/* A guest that sorts 262,144 drawn numbers by merging: 79 million instructions of RV32I, a third of which load or store,
   and whose branches nothing predicts. It puts out a sum of the sorted numbers by their places. */

#include "host.h"

enum { COUNT = 262144 };

static word numbers[COUNT];
static word merged[COUNT];

/* Merges two runs of sorted numbers that follow each other into one. */
static void merge(const word *from, word *to, word length)
{
    word left = 0, right = length;
    for (word i = 0; i < 2 * length; i++) {
        if (right == 2 * length || (left < length && from[left] <= from[right]))
            to[i] = from[left++];
        else
            to[i] = from[right++];
    }
}

void _start(void)
{
    word x = 2463534242u;
    for (word i = 0; i < COUNT; i++)
        numbers[i] = x = draw(x);
    word *from = numbers, *to = merged;
    for (word length = 1; length < COUNT; length *= 2) {
        yield();
        for (word start = 0; start < COUNT; start += 2 * length)
            merge(from + start, to + start, length);
        word *sorted = to;
        to = from, from = sorted;
    }
    word total = 0;
    for (word i = 0; i < COUNT; i++)
        total = (total << 1 | total >> 31) ^ from[i] ^ i;
    finish(total);
}
