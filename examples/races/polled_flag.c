/* A flag that is polled without a lock: a yield makes other threads' stores visible, and orders nothing. So neither the
   flag nor the value that it announces is safe; the value is right only because the machine shows both stores at once.

   races: flag, value */
#include "ithreads.h"

unsigned flag IT_PAGE_ALIGNED;
unsigned value IT_PAGE_ALIGNED;

static unsigned announce(unsigned what)
{
    it_yield();
    it_yield();
    value = what;
    flag = 1;
    return 0;
}

static unsigned poll(unsigned unused)
{
    (void)unused;
    while (!flag)
        it_yield();
    return value;
}

int main(void)
{
    unsigned seen;
    it_thread_create(announce, 42);
    it_thread_create(poll, 0);
    it_thread_join(1, 0);
    it_thread_join(2, &seen);
    return seen == 42 ? 0 : 1;
}
