/* A store after the unlock: the first store is under the mutex, and the second comes when another thread may hold it.
   `title` is stored to only under the mutex, and doesn't race.

   races: pages */
#include "ithreads.h"

enum { LOCK };

unsigned title IT_PAGE_ALIGNED;
unsigned pages IT_PAGE_ALIGNED;

static unsigned write(unsigned count)
{
    it_mutex_lock(LOCK);
    title = 7;
    pages = 1;
    it_mutex_unlock(LOCK);
    pages = count;
    return 0;
}

static unsigned read(unsigned unused)
{
    (void)unused;
    it_mutex_lock(LOCK);
    unsigned found = title + pages;
    it_mutex_unlock(LOCK);
    return found;
}

int main(void)
{
    it_thread_create(write, 200);
    it_thread_create(read, 0);
    it_thread_join(1, 0);
    it_thread_join(2, 0);
    return 0;
}
