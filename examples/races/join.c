/* Main stores before it creates the threads, and reads after it has joined them.

   races: none */
#include "ithreads.h"

struct IT_PAGE_ALIGNED part {
    unsigned from, sum;
};

struct part low, high;

static unsigned add_low(unsigned count)
{
    for (unsigned k = 0; k < count; k++) {
        it_yield();
        low.sum += low.from + k;
    }
    return 0;
}

static unsigned add_high(unsigned count)
{
    for (unsigned k = 0; k < count; k++) {
        it_yield();
        high.sum += high.from + k;
    }
    return 0;
}

int main(void)
{
    low.from = 1;
    high.from = 4;
    it_thread_create(add_low, 3);
    it_thread_create(add_high, 3);
    it_thread_join(1, 0);
    it_thread_join(2, 0);
    return low.sum + high.sum == 21 ? 0 : 1;
}
