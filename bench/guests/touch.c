/* Steps of many pages. The input's words: how many steps there are, and in each of 256 pages how many words a step adds
   to, how many it only reads, and how many bytes it sets, one in each 64. A step that adds to pages reads them as the
   one before it left them, no two of them alike, so that a memo holds each of them anew. */
#include "ithreads.h"

enum { PAGES = 256, WORDS = IT_PAGE / 4 };

static unsigned pages[PAGES][WORDS] IT_PAGE_ALIGNED;

static IT_NOINLINE void add(unsigned words)
{
    for (unsigned page = 0; page < PAGES; page++)
        for (unsigned word = 0; word < words; word++)
            pages[page][word] += 65536 + page;
}

static IT_NOINLINE void look(unsigned words)
{
    for (unsigned page = 0; page < PAGES; page++)
        for (unsigned word = 0; word < words; word++)
            (void)*(volatile unsigned *)&pages[page][word];
}

static IT_NOINLINE void set(unsigned bytes, unsigned step)
{
    for (unsigned page = 0; page < PAGES; page++)
        for (unsigned byte = 0; byte < bytes; byte++)
            ((unsigned char *)pages[page])[64 * byte] = (unsigned char)step;
}

int main(void)
{
    const unsigned *asked = (const unsigned *)it_input();
    for (unsigned step = 0; step < asked[0]; step++) {
        add(asked[1]);
        look(asked[2]);
        set(asked[3], step);
        it_yield();
    }
    return 0;
}
