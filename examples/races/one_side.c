/* A lock that only one side takes: the thread that adds holds the mutex, and the one that subtracts doesn't.

   races: balance */
#include "ithreads.h"

enum { LOCK };

unsigned balance IT_PAGE_ALIGNED;

static unsigned add(unsigned amount)
{
    it_mutex_lock(LOCK);
    balance += amount;
    it_mutex_unlock(LOCK);
    return 0;
}

static unsigned take(unsigned amount)
{
    it_yield();
    balance -= amount;
    it_yield();
    return 0;
}

int main(void)
{
    it_thread_create(add, 50);
    it_thread_create(take, 20);
    it_thread_join(1, 0);
    it_thread_join(2, 0);
    return 0;
}
