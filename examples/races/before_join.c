/* A read before the join: main looks at the result while the thread may still compute it. What it reads after the join,
   `remainder`, doesn't race.

   races: result */
#include "ithreads.h"

unsigned result IT_PAGE_ALIGNED;
unsigned remainder IT_PAGE_ALIGNED;
unsigned sum IT_PAGE_ALIGNED;

static unsigned compute(unsigned number)
{
    it_yield();
    result = number >> 3;
    remainder = number & 7;
    return 0;
}

int main(void)
{
    it_thread_create(compute, 100);
    sum = result;
    it_thread_join(1, 0);
    sum += remainder;
    return 0;
}
