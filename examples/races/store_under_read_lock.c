/* Readers that store under a read lock: it excludes writers, but not the other reader. The table that they read doesn't
   race.

   races: hits */
#include "ithreads.h"

enum { LOCK };

unsigned hits IT_PAGE_ALIGNED;
unsigned table[4] IT_PAGE_ALIGNED;

static unsigned look_up(unsigned key)
{
    it_rwlock_rdlock(LOCK);
    unsigned found = table[key];
    hits++;
    it_rwlock_unlock(LOCK);
    return found;
}

int main(void)
{
    for (unsigned k = 0; k < 4; k++)
        table[k] = k + 10;
    it_thread_create(look_up, 1);
    it_thread_create(look_up, 3);
    it_thread_join(1, 0);
    it_thread_join(2, 0);
    return 0;
}
