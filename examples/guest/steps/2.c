/* Counts lines, words and bytes, as wc does. The second version of docs/GUESTS.md: a block is one page of the input, followed by a call.

   reuse: fewer, since each step depends on the length, and on all that its thread counted before. */
#include "ithreads.h"

enum { WORKERS = 4, TOTALS = 0 };

static unsigned lines, words; /* under TOTALS */
static char text[32];

static unsigned is_space(unsigned byte)
{
    return byte == ' ' || byte - '\t' < 5;
}

static unsigned work(unsigned worker)
{
    const unsigned char *input = it_input();
    unsigned length = it_input_length(), line = 0, word = 0;
    for (unsigned first = worker * IT_PAGE; first < length; first += WORKERS * IT_PAGE) {
        unsigned end = first + IT_PAGE < length ? first + IT_PAGE : length;
        for (unsigned k = first; k < end; k++) {
            line += input[k] == '\n';
            word += !is_space(input[k]) && (k == 0 || is_space(input[k - 1]));
        }
        it_yield();
    }
    it_mutex_lock(TOTALS);
    lines += line;
    words += word;
    it_mutex_unlock(TOTALS);
    return 0;
}

static IT_NOINLINE unsigned write_text(void)
{
    char *end = it_decimal(text, lines);
    *end++ = ' ';
    end = it_decimal(end, words);
    *end++ = ' ';
    end = it_decimal(end, it_input_length());
    *end++ = '\n';
    return (unsigned)(end - text);
}

int main(void)
{
    for (unsigned w = 0; w < WORKERS; w++)
        it_thread_create(work, w);
    for (unsigned w = 0; w < WORKERS; w++)
        it_thread_join(w + 1, 0);
    it_put(text, write_text());
    return 0;
}
