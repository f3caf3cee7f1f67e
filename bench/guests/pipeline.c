/* A pipeline of four stages, for bench/workers. The input's words: how many items there are, at most 64; how many numbers a stage draws for an item, of
   eight turns each; and a number that the first stage begins with. A stage takes an item from the one before it by a semaphore, and hands it on by
   another; only neighbours have one in common, and each item lies on a page of its own at each stage. Main puts out the sum of what the last stage drew. */
#include "drawing.h"

enum { STAGES = 4, MOST = 64, WORDS = 1024 };

static unsigned drawn_at[STAGES][MOST][WORDS] IT_PAGE_ALIGNED;

static unsigned items(void)
{
    return asked()[0] < MOST ? asked()[0] : MOST;
}

static unsigned work(unsigned stage)
{
    for (unsigned item = 0; item < items(); item++) {
        if (stage)
            it_sem_wait(stage);
        unsigned x = stage ? drawn_at[stage - 1][item][0] : asked()[2] + item;
        drawn_at[stage][item][0] = drawn(x, asked()[1]);
        it_sem_post(stage + 1);
    }
    return 0;
}

int main(void)
{
    unsigned sum = 0;
    for (unsigned stage = 0; stage < STAGES; stage++)
        it_thread_create(work, stage);
    for (unsigned stage = 0; stage < STAGES; stage++)
        it_thread_join(stage + 1, 0);
    for (unsigned item = 0; item < items(); item++)
        sum += drawn_at[STAGES - 1][item][0];
    it_put_all(&sum, sizeof sum);
    return 0;
}
