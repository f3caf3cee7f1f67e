/* The product of two byte matrices, modulo 256: the first of 1,020 rows by 64 columns, the second behind it, of 64 rows by 4. Four threads
   take 255 rows each, in one thunk; main joins them and puts the product out. */
#include "ithreads.h"

enum { ROWS = 1020, INNER = 64, COLUMNS = 4, WORKERS = 4, BAND = ROWS / WORKERS };

static unsigned char product[WORKERS][IT_PAGE] IT_PAGE_ALIGNED;

static unsigned band(unsigned which)
{
    const unsigned char *a = it_input() + which * (BAND * INNER), *b = it_input() + ROWS * INNER;
    unsigned char *to = product[which];
    for (unsigned row = 0; row < BAND; row++, a += INNER)
        for (unsigned column = 0; column < COLUMNS; column++) {
            unsigned sum = 0;
            for (unsigned k = 0; k < INNER; k++)
                sum += a[k] * b[k * COLUMNS + column];
            *to++ = (unsigned char)sum;
        }
    return which;
}

int main(void)
{
    if (it_input_length() < ROWS * INNER + INNER * COLUMNS)
        return 1;
    for (unsigned w = 0; w < WORKERS; w++)
        it_thread_create(band, w);
    for (unsigned w = 0; w < WORKERS; w++)
        it_thread_join(w + 1, 0);
    for (unsigned w = 0; w < WORKERS; w++)
        it_put(product[w], BAND * COLUMNS);
    return 0;
}
