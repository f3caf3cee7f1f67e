/* Each thread announces that it wants to go in, and checks whether the other does, without a lock: both may go in. Both
   flags are on one page, and no byte is stored to twice; still each is stored to by one thread and read by the other.

   races: first_wants, second_wants */
#include "ithreads.h"

unsigned first_wants IT_PAGE_ALIGNED;
unsigned second_wants;

static unsigned first(unsigned yes)
{
    it_yield();
    first_wants = yes;
    unsigned is_alone = !second_wants;
    it_yield();
    return is_alone;
}

static unsigned second(unsigned yes)
{
    it_yield();
    second_wants = yes;
    unsigned is_alone = !first_wants;
    it_yield();
    return is_alone;
}

int main(void)
{
    it_thread_create(first, 1);
    it_thread_create(second, 1);
    it_thread_join(1, 0);
    it_thread_join(2, 0);
    return 0;
}
