/* Threads of unequal length that have nothing to do with each other, for bench/workers. The input's words: how many threads there are, and how many
   numbers each draws in a block, of eight turns each. Thread t makes t blocks, with a yield behind each, so the last thread makes the most; it begins
   with the first word of page t of the input, which no other thread reads. Main puts out the sum of what they drew last. */
#include "drawing.h"

enum { WORDS = 1024 };

static unsigned work(unsigned thread)
{
    unsigned x = asked()[thread * WORDS];
    for (unsigned block = 0; block < thread; block++) {
        x = drawn(x, asked()[1]);
        it_yield();
    }
    return x;
}

int main(void)
{
    return sum_of_threads(work);
}
