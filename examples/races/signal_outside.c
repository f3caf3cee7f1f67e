/* A condition whose variable is stored to without the mutex: the waiting thread checks it with the mutex locked, but
   the other stores without. With the two threads in another order the signal comes first, and is lost.

   races: ready */
#include "ithreads.h"

enum { LOCK, CHANGED = 0 };

unsigned ready IT_PAGE_ALIGNED;

static unsigned await(unsigned unused)
{
    (void)unused;
    it_mutex_lock(LOCK);
    while (!ready)
        it_cond_wait(CHANGED, LOCK);
    it_mutex_unlock(LOCK);
    return 0;
}

static unsigned prepare(unsigned how)
{
    it_yield();
    ready = how;
    it_cond_signal(CHANGED);
    return 0;
}

int main(void)
{
    it_thread_create(await, 0);
    it_thread_create(prepare, 1);
    it_thread_join(1, 0);
    it_thread_join(2, 0);
    return 0;
}
