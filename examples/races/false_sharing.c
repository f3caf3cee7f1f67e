/* Two counters on one page, each with a mutex of its own.

   races: none
   false sharing: left, right */
#include "ithreads.h"

enum { FOR_LEFT, FOR_RIGHT };

unsigned left IT_PAGE_ALIGNED;
unsigned right;

static unsigned add_left(unsigned times)
{
    for (unsigned k = 0; k < times; k++) {
        it_mutex_lock(FOR_LEFT);
        left++;
        it_mutex_unlock(FOR_LEFT);
    }
    return 0;
}

static unsigned add_right(unsigned times)
{
    for (unsigned k = 0; k < times; k++) {
        it_mutex_lock(FOR_RIGHT);
        right++;
        it_mutex_unlock(FOR_RIGHT);
    }
    return 0;
}

int main(void)
{
    it_thread_create(add_left, 2);
    it_thread_create(add_right, 3);
    it_thread_join(1, 0);
    it_thread_join(2, 0);
    return left == 2 && right == 3 ? 0 : 1;
}
