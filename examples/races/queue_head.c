/* A queue whose head is read outside the lock: two threads check there whether an item remains, and take it under the
   mutex. The items are only read, and don't race.

   races: head */
#include "ithreads.h"

enum { LOCK, ITEMS = 6 };

unsigned head IT_PAGE_ALIGNED;
unsigned items[ITEMS] IT_PAGE_ALIGNED;

static unsigned consume(unsigned unused)
{
    (void)unused;
    unsigned sum = 0;
    while (head < ITEMS) {
        it_mutex_lock(LOCK);
        if (head < ITEMS)
            sum += items[head++];
        it_mutex_unlock(LOCK);
    }
    return sum;
}

int main(void)
{
    unsigned one, other;
    for (unsigned k = 0; k < ITEMS; k++)
        items[k] = k + 1;
    it_thread_create(consume, 0);
    it_thread_create(consume, 0);
    it_thread_join(1, &one);
    it_thread_join(2, &other);
    return one + other == 21 ? 0 : 1;
}
