/* Threads that have nothing to do with each other, for bench/workers. The input's words: how many threads there are, how many blocks each of them
   makes, and how many numbers it draws in a block, of eight turns each. Between two blocks stands a yield. Main puts out the sum of what they drew
   last. */
#include "drawing.h"

static unsigned work(unsigned x)
{
    for (unsigned block = 0; block < asked()[1]; block++) {
        x = drawn(x, asked()[2]);
        it_yield();
    }
    return x;
}

int main(void)
{
    return sum_of_threads(work);
}
