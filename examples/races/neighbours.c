/* A limit that is only read, next to a counter that only another thread uses: they share a page, but no byte.

   races: none
   false sharing: count, limit */
#include "ithreads.h"

unsigned limit IT_PAGE_ALIGNED;
unsigned count;

static unsigned add(unsigned times)
{
    for (unsigned k = 0; k < times; k++) {
        it_yield();
        count++;
    }
    return 0;
}

static unsigned watch(unsigned times)
{
    unsigned sum = 0;
    for (unsigned k = 0; k < times; k++) {
        it_yield();
        sum += limit;
    }
    return sum;
}

int main(void)
{
    unsigned sum;
    limit = 5;
    it_thread_create(add, 3);
    it_thread_create(watch, 3);
    it_thread_join(1, 0);
    it_thread_join(2, &sum);
    return count == 3 && sum == 15 ? 0 : 1;
}
