/* A counter without its mutex: two threads read it, add 1 and store it, and nothing keeps one from interfering.

   races: counter */
#include "ithreads.h"

unsigned counter IT_PAGE_ALIGNED;
char line[16] IT_PAGE_ALIGNED;

static unsigned add(unsigned times)
{
    for (unsigned k = 0; k < times; k++) {
        it_yield();
        counter++;
    }
    return 0;
}

int main(void)
{
    it_thread_create(add, 3);
    it_thread_create(add, 3);
    it_thread_join(1, 0);
    it_thread_join(2, 0);
    it_put(line, (unsigned)(it_decimal(line, counter) - line));
    return 0;
}
