/* 31 threads that each store to a word of one page, without an order, as often as the input's first word says: each store
   is a step. So any two steps of two threads touch the page, and hardly any are ordered. */
#include "ithreads.h"

enum { WORKERS = IT_THREADS - 1 };

unsigned words[WORKERS] IT_PAGE_ALIGNED;

static unsigned work(unsigned worker)
{
    unsigned times = *(const unsigned *)(const void *)it_input();
    for (unsigned k = 0; k < times; k++) {
        it_yield();
        words[worker] = k;
    }
    return 0;
}

int main(void)
{
    for (unsigned worker = 0; worker < WORKERS; worker++)
        it_thread_create(work, worker);
    for (unsigned worker = 0; worker < WORKERS; worker++)
        it_thread_join(worker + 1, 0);
    return 0;
}
