/* Each thread stores its half, and reads the other's after a barrier.

   races: none */
#include "ithreads.h"

enum { BOTH };

unsigned left IT_PAGE_ALIGNED;
unsigned right IT_PAGE_ALIGNED;

static unsigned compute_left(unsigned half)
{
    it_yield();
    left = half;
    it_barrier_wait(BOTH);
    return left + right;
}

static unsigned compute_right(unsigned half)
{
    it_yield();
    right = half;
    it_barrier_wait(BOTH);
    return left + right;
}

int main(void)
{
    unsigned one, other;
    it_barrier_init(BOTH, 2);
    it_thread_create(compute_left, 30);
    it_thread_create(compute_right, 4);
    it_thread_join(1, &one);
    it_thread_join(2, &other);
    return one == 34 && other == 34 ? 0 : 1;
}
