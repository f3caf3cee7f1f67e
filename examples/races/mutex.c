/* A counter with its mutex.

   races: none */
#include "ithreads.h"

enum { LOCK };

unsigned counter IT_PAGE_ALIGNED;

static unsigned add(unsigned times)
{
    for (unsigned k = 0; k < times; k++) {
        it_mutex_lock(LOCK);
        counter++;
        it_mutex_unlock(LOCK);
    }
    return 0;
}

int main(void)
{
    it_thread_create(add, 3);
    it_thread_create(add, 3);
    it_thread_join(1, 0);
    it_thread_join(2, 0);
    return counter == 6 ? 0 : 1;
}
