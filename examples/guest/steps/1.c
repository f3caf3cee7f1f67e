/* Counts lines, words and bytes, as wc does. The first version of docs/GUESTS.md, the obvious one: four threads, a
   quarter of the input each; totals in registers, which are then added up under a mutex. */
#include "ithreads.h"

enum { WORKERS = 4, TOTALS = 0 };

static unsigned lines, words; /* under TOTALS */
static char text[32];

static unsigned is_space(unsigned byte)
{
    return byte == ' ' || byte - '\t' < 5;
}

static unsigned work(unsigned worker)
{
    const unsigned char *input = it_input();
    unsigned length = it_input_length(), size = (length + WORKERS - 1) / WORKERS, line = 0, word = 0;
    unsigned first = worker * size, end = first + size < length ? first + size : length;
    for (unsigned k = first; k < end; k++) {
        line += input[k] == '\n';
        word += !is_space(input[k]) && (k == 0 || is_space(input[k - 1]));
    }
    it_mutex_lock(TOTALS);
    lines += line;
    words += word;
    it_mutex_unlock(TOTALS);
    return 0;
}

static IT_NOINLINE unsigned write_text(void)
{
    char *end = it_decimal(text, lines);
    *end++ = ' ';
    end = it_decimal(end, words);
    *end++ = ' ';
    end = it_decimal(end, it_input_length());
    *end++ = '\n';
    return (unsigned)(end - text);
}

int main(void)
{
    for (unsigned w = 0; w < WORKERS; w++)
        it_thread_create(work, w);
    for (unsigned w = 0; w < WORKERS; w++)
        it_thread_join(w + 1, 0);
    it_put(text, write_text());
    return 0;
}
