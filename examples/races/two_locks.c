/* Two locks for one variable: each thread holds a mutex while it adds, but not the same one.

   races: total */
#include "ithreads.h"

unsigned total IT_PAGE_ALIGNED;

static unsigned add(unsigned lock)
{
    for (unsigned k = 0; k < 2; k++) {
        it_mutex_lock(lock);
        total += 10;
        it_mutex_unlock(lock);
    }
    return 0;
}

int main(void)
{
    it_thread_create(add, 0);
    it_thread_create(add, 1);
    it_thread_join(1, 0);
    it_thread_join(2, 0);
    return 0;
}
