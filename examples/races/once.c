/* A value made once, by the first thread: each checks under the mutex if it exists, and later reads it without.

   races: none */
#include "ithreads.h"

enum { LOCK };

unsigned made IT_PAGE_ALIGNED;
unsigned value IT_PAGE_ALIGNED;

static unsigned use(unsigned turns)
{
    for (unsigned k = 0; k < turns; k++)
        it_yield();
    it_mutex_lock(LOCK);
    if (!made) {
        value = 42;
        made = 1;
    }
    it_mutex_unlock(LOCK);
    return value;
}

int main(void)
{
    unsigned one, other;
    it_thread_create(use, 1);
    it_thread_create(use, 6);
    it_thread_join(1, &one);
    it_thread_join(2, &other);
    return one == 42 && other == 42 ? 0 : 1;
}
