/* Counts lines, words and bytes, as wc does. The third version of docs/GUESTS.md: a block's counts are stored, and not kept in registers.

   reuse: fewer, since each block asks for the input's length. */
#include "ithreads.h"

enum { WORKERS = 4, BLOCKS = IT_INPUT_MOST / IT_PAGE };

static struct counts {
    unsigned lines, words;
} counts[BLOCKS];
static char text[32];

static unsigned is_space(unsigned byte)
{
    return byte == ' ' || byte - '\t' < 5;
}

/* whether there was something to count */
static IT_NOINLINE int count(unsigned b)
{
    const unsigned char *input = it_input();
    unsigned length = it_input_length(), line = 0, word = 0, first = b * IT_PAGE;
    if (first >= length)
        return 0;
    for (unsigned k = first; k < first + IT_PAGE && k < length; k++) {
        line += input[k] == '\n';
        word += !is_space(input[k]) && (k == 0 || is_space(input[k - 1]));
    }
    counts[b].lines = line;
    counts[b].words = word;
    return 1;
}

static unsigned work(unsigned worker)
{
    for (unsigned b = worker; b < BLOCKS && count(b); b += WORKERS)
        it_yield();
    return 0;
}

static IT_NOINLINE unsigned write_text(void)
{
    unsigned lines = 0, words = 0;
    for (unsigned b = 0; b * IT_PAGE < it_input_length(); b++) {
        lines += counts[b].lines;
        words += counts[b].words;
    }
    char *end = it_decimal(text, lines);
    *end++ = ' ';
    end = it_decimal(end, words);
    *end++ = ' ';
    end = it_decimal(end, it_input_length());
    *end++ = '\n';
    return (unsigned)(end - text);
}

int main(void)
{
    for (unsigned w = 0; w < WORKERS; w++)
        it_thread_create(work, w);
    for (unsigned w = 0; w < WORKERS; w++)
        it_thread_join(w + 1, 0);
    it_put(text, write_text());
    return 0;
}
