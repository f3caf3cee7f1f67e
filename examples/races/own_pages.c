/* Each thread counts on a page of its own, and main adds up after the joins.

   races: none */
#include "ithreads.h"

enum { THREADS = 3 };

struct IT_PAGE_ALIGNED own {
    unsigned count;
};

struct own own[THREADS];

static unsigned count(unsigned place)
{
    for (unsigned k = 0; k <= place; k++) {
        it_yield();
        own[place].count++;
    }
    return 0;
}

int main(void)
{
    unsigned sum = 0;
    for (unsigned k = 0; k < THREADS; k++)
        it_thread_create(count, k);
    for (unsigned k = 0; k < THREADS; k++) {
        it_thread_join(k + 1, 0);
        sum += own[k].count;
    }
    return sum == 1 + 2 + 3 ? 0 : 1;
}
