#include "ithreads.h"

static struct IT_PAGE_ALIGNED part { unsigned sum; } parts[2];
static char text[16];

static unsigned add_up(unsigned page)    /* a thread: adds up the bytes of one page of the input */
{
    for (unsigned k = 0; k < IT_PAGE; k++)
        parts[page].sum += it_input()[page * IT_PAGE + k];
    return 0;
}

int main(void)
{
    it_thread_create(add_up, 0);         /* thread 1 */
    it_thread_create(add_up, 1);         /* thread 2 */
    it_thread_join(1, 0);
    it_thread_join(2, 0);
    char *end = it_decimal(text, parts[0].sum + parts[1].sum);
    it_put(text, (unsigned)(end - text));
    return 0;
}
