/* A slot that two threads pass back and forth by two semaphores: one means that it is full, the other that it is empty.

   races: none */
#include "ithreads.h"

enum { FULL, EMPTY, ITEMS = 4 };

unsigned slot IT_PAGE_ALIGNED;

static unsigned produce(unsigned first)
{
    for (unsigned k = 0; k < ITEMS; k++) {
        it_sem_wait(EMPTY);
        slot = first + k;
        it_sem_post(FULL);
    }
    return 0;
}

static unsigned consume(unsigned sum)
{
    for (unsigned k = 0; k < ITEMS; k++) {
        it_sem_wait(FULL);
        sum += slot;
        it_sem_post(EMPTY);
    }
    return sum;
}

int main(void)
{
    unsigned sum;
    it_sem_init(EMPTY, 1);
    it_thread_create(produce, 5);
    it_thread_create(consume, 0);
    it_thread_join(1, 0);
    it_thread_join(2, &sum);
    return sum == 5 + 6 + 7 + 8 ? 0 : 1;
}
