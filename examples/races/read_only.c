/* A table that main fills before there are threads; they read it concurrently, without a lock.

   races: none */
#include "ithreads.h"

enum { ENTRIES = 8 };

unsigned table[ENTRIES] IT_PAGE_ALIGNED;

static unsigned add_up(unsigned step)
{
    unsigned sum = 0;
    for (unsigned k = 0; k < ENTRIES; k += step) {
        it_yield();
        sum += table[k];
    }
    return sum;
}

int main(void)
{
    unsigned one, other;
    for (unsigned k = 0; k < ENTRIES; k++)
        table[k] = k;
    it_thread_create(add_up, 1);
    it_thread_create(add_up, 2);
    it_thread_join(1, &one);
    it_thread_join(2, &other);
    return one == 28 && other == 12 ? 0 : 1;
}
