/* Counts lines, words and bytes, as wc does. The fifth version of docs/GUESTS.md: the length that main stores for a block has its own page. */
#include "ithreads.h"

enum { WORKERS = 4, BLOCKS = IT_INPUT_MOST / IT_PAGE };

static struct counts {
    unsigned lines, words;
} counts[BLOCKS];
static struct IT_PAGE_ALIGNED share {
    unsigned length; /* 0 behind the input's end */
} shares[BLOCKS];
static char text[32];

static unsigned is_space(unsigned byte)
{
    return byte == ' ' || byte - '\t' < 5;
}

static IT_NOINLINE void deal(void)
{
    unsigned left = it_input_length();
    for (unsigned b = 0; left; b++) {
        shares[b].length = left < IT_PAGE ? left : IT_PAGE;
        left -= shares[b].length;
    }
}

/* whether there was something to count */
static IT_NOINLINE int count(unsigned b)
{
    const unsigned char *input = it_input();
    unsigned length = shares[b].length, line = 0, word = 0, first = b * IT_PAGE;
    for (unsigned k = first; k < first + length; k++) {
        line += input[k] == '\n';
        word += !is_space(input[k]) && (k == 0 || is_space(input[k - 1]));
    }
    counts[b].lines = line;
    counts[b].words = word;
    return length != 0;
}

static unsigned work(unsigned worker)
{
    for (unsigned b = worker; b < BLOCKS && count(b); b += WORKERS)
        it_yield();
    return 0;
}

static IT_NOINLINE unsigned write_text(void)
{
    unsigned lines = 0, words = 0;
    for (unsigned b = 0; b < BLOCKS && shares[b].length; b++) {
        lines += counts[b].lines;
        words += counts[b].words;
    }
    char *end = it_decimal(text, lines);
    *end++ = ' ';
    end = it_decimal(end, words);
    *end++ = ' ';
    end = it_decimal(end, it_input_length());
    *end++ = '\n';
    return (unsigned)(end - text);
}

int main(void)
{
    deal();
    for (unsigned w = 0; w < WORKERS; w++)
        it_thread_create(work, w);
    for (unsigned w = 0; w < WORKERS; w++)
        it_thread_join(w + 1, 0);
    it_put(text, write_text());
    return 0;
}
