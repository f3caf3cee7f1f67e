/* Two readers under a read lock, and a writer under a write lock.

   races: none */
#include "ithreads.h"

enum { LOCK };

unsigned price IT_PAGE_ALIGNED;
unsigned tax IT_PAGE_ALIGNED;

static unsigned read(unsigned times)
{
    unsigned wrong = 0;
    for (unsigned k = 0; k < times; k++) {
        it_rwlock_rdlock(LOCK);
        wrong += tax != price >> 2;
        it_rwlock_unlock(LOCK);
    }
    return wrong;
}

static unsigned write(unsigned times)
{
    for (unsigned k = 0; k < times; k++) {
        it_rwlock_wrlock(LOCK);
        price += 8;
        tax += 2;
        it_rwlock_unlock(LOCK);
    }
    return 0;
}

int main(void)
{
    unsigned one, other;
    it_thread_create(read, 3);
    it_thread_create(read, 3);
    it_thread_create(write, 3);
    it_thread_join(1, &one);
    it_thread_join(2, &other);
    it_thread_join(3, 0);
    return one + other;
}
