/* Counts how often each byte occurs in the input: a line `BYTE COUNT` for each byte that occurs, ascending, both in decimal.

   A block of the work is one page of the input. Worker w counts the blocks w, w + 4, w + 8 .. up to the input's end, adds up
   its counts, and ends. The main thread joins the workers, adds up their sums and outputs the lines.

   What keeps an edit small:
   - each block's counts have a page of their own, and so do each worker's sums: an edited byte changes one page of counts,
     one worker's sums, and the lines. Everything else is reused, since nothing else loads these pages.
   - there is a call after each block. The workers carry nothing from block to block except the block's number.
   - no worker reads the input's length, or each step would start differently once it changes. The main thread stores how
     many bytes a block has on the block's page; a longer input changes this only for the blocks at its old and its new end.
   - sums have two levels, so the last step loads four pages and not one for each block. */
#include "ithreads.h"

enum { WORKERS = 4, BLOCKS = IT_INPUT_MOST / IT_PAGE, BYTES = 256 };

struct IT_PAGE_ALIGNED block {
    unsigned length; /* 0 behind the input's end */
    unsigned counts[BYTES];
};

struct IT_PAGE_ALIGNED sums {
    unsigned of[BYTES];
};

static struct block blocks[BLOCKS];
static struct sums sums[WORKERS];
static char lines[BYTES * 16] IT_PAGE_ALIGNED;

static IT_NOINLINE void deal(void)
{
    unsigned left = it_input_length();
    for (unsigned b = 0; left; b++) {
        blocks[b].length = left < IT_PAGE ? left : IT_PAGE;
        left -= blocks[b].length;
    }
}

/* whether there was something to count */
static IT_NOINLINE int count(unsigned b)
{
    struct block *block = &blocks[b];
    const unsigned char *bytes = it_input() + b * IT_PAGE, *end = bytes + block->length;
    for (; bytes < end; bytes++)
        block->counts[*bytes]++;
    return block->length != 0;
}

static IT_NOINLINE void add_up(unsigned worker)
{
    for (unsigned b = worker; b < BLOCKS && blocks[b].length; b += WORKERS)
        for (unsigned k = 0; k < BYTES; k++)
            sums[worker].of[k] += blocks[b].counts[k];
}

static unsigned work(unsigned worker)
{
    for (unsigned b = worker; b < BLOCKS && count(b); b += WORKERS)
        it_yield();
    add_up(worker);
    return 0;
}

static IT_NOINLINE unsigned write_lines(void)
{
    char *end = lines;
    for (unsigned k = 0; k < BYTES; k++) {
        unsigned total = 0;
        for (unsigned w = 0; w < WORKERS; w++)
            total += sums[w].of[k];
        if (total) {
            end = it_decimal(end, k);
            *end++ = ' ';
            end = it_decimal(end, total);
            *end++ = '\n';
        }
    }
    return (unsigned)(end - lines);
}

int main(void)
{
    deal();
    for (unsigned w = 0; w < WORKERS; w++)
        it_thread_create(work, w);
    for (unsigned w = 0; w < WORKERS; w++)
        it_thread_join(w + 1, 0);
    it_put(lines, write_lines());
    return 0;
}
