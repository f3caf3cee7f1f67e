/* Short steps under one mutex, for bench/workers. The input's words: how many threads there are, and how often each of them takes the mutex. A step
   is some fifty turns, whether it begins at the lock or behind the unlock. Main puts out the total. */
#include "drawing.h"

enum { DRAWS = 4 };

static unsigned total;

static unsigned work(unsigned x)
{
    for (unsigned times = asked()[1]; times; times--) {
        it_mutex_lock(0);
        x = drawn(x, DRAWS);
        total += x;
        it_mutex_unlock(0);
        x = drawn(x, DRAWS);
    }
    return x;
}

int main(void)
{
    unsigned threads = asked()[0];
    for (unsigned thread = 1; thread <= threads; thread++)
        it_thread_create(work, thread);
    for (unsigned thread = 1; thread <= threads; thread++)
        it_thread_join(thread, 0);
    it_put_all(&total, sizeof total);
    return 0;
}
