/* What the guests of bench/workers share: the words that they are asked for, and numbers that are drawn, as a length of
   work that touches no page. */
#include "ithreads.h"

/* The input's words. */
static const unsigned *asked(void)
{
    return (const unsigned *)it_input();
}

/* What so many draws by xorshift make of a number, of eight turns each. */
static IT_NOINLINE unsigned drawn(unsigned x, unsigned numbers)
{
    while (numbers--) {
        x ^= x << 13;
        x ^= x >> 17;
        x ^= x << 5;
    }
    return x;
}

/* What main does where threads have nothing to do with each other: it makes as many as the first word asks for, numbered
   from 1 on, joins them, and puts out the sum of what they end with. */
static inline int sum_of_threads(unsigned (*work)(unsigned))
{
    unsigned sum = 0, value;
    for (unsigned thread = 1; thread <= asked()[0]; thread++)
        it_thread_create(work, thread);
    for (unsigned thread = 1; thread <= asked()[0]; thread++) {
        it_thread_join(thread, &value);
        sum += value;
    }
    it_put_all(&sum, sizeof sum);
    return 0;
}
