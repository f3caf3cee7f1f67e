/* A barrier that comes too late: one thread adds up both halves before it, and not after it as it should. `right` is
   its own half, and doesn't race; nor does what main reads after the joins.

   races: left */
#include "ithreads.h"

enum { BOTH };

unsigned left IT_PAGE_ALIGNED;
unsigned right IT_PAGE_ALIGNED;
unsigned sum IT_PAGE_ALIGNED;

static unsigned compute_left(unsigned half)
{
    it_yield();
    left = half;
    it_barrier_wait(BOTH);
    return 0;
}

static unsigned compute_right(unsigned half)
{
    it_yield();
    right = half;
    sum = left + right;
    it_barrier_wait(BOTH);
    return 0;
}

int main(void)
{
    it_barrier_init(BOTH, 2);
    it_thread_create(compute_left, 30);
    it_thread_create(compute_right, 4);
    it_thread_join(1, 0);
    it_thread_join(2, 0);
    return left == 30 && right == 4 ? 0 : 1;
}
