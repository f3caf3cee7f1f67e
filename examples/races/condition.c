/* A condition whose variable is read and stored to under the mutex.

   races: none */
#include "ithreads.h"

enum { LOCK, CHANGED = 0 };

unsigned ready IT_PAGE_ALIGNED;
unsigned value IT_PAGE_ALIGNED;

static unsigned await(unsigned unused)
{
    (void)unused;
    it_mutex_lock(LOCK);
    while (!ready)
        it_cond_wait(CHANGED, LOCK);
    it_mutex_unlock(LOCK);
    return value;
}

static unsigned prepare(unsigned what)
{
    it_yield();
    value = what;
    it_mutex_lock(LOCK);
    ready = 1;
    it_cond_signal(CHANGED);
    it_mutex_unlock(LOCK);
    return 0;
}

int main(void)
{
    unsigned seen;
    it_thread_create(await, 0);
    it_thread_create(prepare, 42);
    it_thread_join(1, &seen);
    it_thread_join(2, 0);
    return seen == 42 ? 0 : 1;
}
