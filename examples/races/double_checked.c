/* An initialisation that is checked twice: a thread that finds `made` set doesn't lock, and nothing orders its reads
   after the stores of the thread that made the value.

   races: made, value */
#include "ithreads.h"

enum { LOCK };

unsigned made IT_PAGE_ALIGNED;
unsigned value IT_PAGE_ALIGNED;

static unsigned use(unsigned turns)
{
    for (unsigned k = 0; k < turns; k++)
        it_yield();
    if (!made) {
        it_mutex_lock(LOCK);
        if (!made) {
            value = 42;
            made = 1;
        }
        it_mutex_unlock(LOCK);
    }
    return value;
}

int main(void)
{
    unsigned one, other;
    it_thread_create(use, 1);
    it_thread_create(use, 6);
    it_thread_join(1, &one);
    it_thread_join(2, &other);
    return one == 42 && other == 42 ? 0 : 1;
}
