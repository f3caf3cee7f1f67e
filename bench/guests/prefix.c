/* Prefix sums of the input's bytes, at most 65,536 of them. Four threads add up a quarter each and meet at a barrier; then each starts from
   the sum of the quarters before its own. Main puts out the sum after each 64th byte. */
#include "ithreads.h"

enum { WORKERS = 4, MEETING = 9, MOST = 65536, STRIDE = 64 };

static unsigned totals[WORKERS];
static unsigned sums[MOST] IT_PAGE_ALIGNED;
static unsigned marks[MOST / STRIDE] IT_PAGE_ALIGNED;

static unsigned count(void)
{
    unsigned length = it_input_length();
    return length < MOST ? length : MOST;
}

static unsigned quarter(unsigned which)
{
    unsigned length = count(), size = (length + WORKERS - 1) / WORKERS;
    unsigned from = size * which, to = from + size, sum = 0;
    if (from > length)
        from = length;
    if (to > length)
        to = length;
    for (unsigned i = from; i < to; i++)
        sum += it_input()[i];
    totals[which] = sum;
    it_barrier_wait(MEETING);
    sum = 0;
    for (unsigned j = 0; j < which; j++)
        sum += totals[j];
    for (unsigned i = from; i < to; i++)
        sums[i] = sum += it_input()[i];
    return sum;
}

int main(void)
{
    unsigned length = count(), marked = 0;
    it_barrier_init(MEETING, WORKERS);
    for (unsigned w = 0; w < WORKERS; w++)
        it_thread_create(quarter, w);
    for (unsigned w = 0; w < WORKERS; w++)
        it_thread_join(w + 1, 0);
    for (unsigned i = STRIDE - 1; i < length; i += STRIDE)
        marks[marked++] = sums[i];
    it_put_all(marks, marked * 4);
    return 0;
}
