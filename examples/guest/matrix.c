/* The product of two matrices of 32-bit words, modulo 2^32, row by row. The input has the first, 256 rows by 32 columns, and then the
   second, 32 rows by 8 columns; the output has 256 rows by 8 columns. Words are little-endian, as in the machine. A shorter input ends the
   run with code 1; bytes after the matrices are ignored.

   A tile of the product is 32 rows, which are one page of the input, by one column. Each of four workers computes two bands of rows, in
   each band one tile after the other, with a call after each.

   What keeps an edit small:
   - the second matrix is on one page of the input, and each tile needs one column of it. So the main thread first copies each column to a
     page of its own, in a short step. Then an edited word of the second matrix reaches the tiles of one column, and one of the first matrix
     the tiles of one band: 8 of the 64 tiles each.
   - the tiles of a band are stored to one page, since a page that a step only stores to doesn't count; and one it_put outputs that page. */
#include "ithreads.h"

enum { WORKERS = 4, ROWS = 256, INNER = 32, COLUMNS = 8, BAND = IT_PAGE / 4 / INNER, BANDS = ROWS / BAND };

struct IT_PAGE_ALIGNED column {
    unsigned of[INNER];
};

struct IT_PAGE_ALIGNED band {
    unsigned of[BAND][COLUMNS];
};

static struct column columns[COLUMNS];
static struct band product[BANDS];

static IT_NOINLINE int copy_columns(void)
{
    const unsigned *second = (const unsigned *)(const void *)it_input() + ROWS * INNER;
    if (it_input_length() < 4 * (ROWS * INNER + INNER * COLUMNS))
        return 0;
    for (unsigned k = 0; k < INNER; k++)
        for (unsigned j = 0; j < COLUMNS; j++)
            columns[j].of[k] = *second++;
    return 1;
}

static IT_NOINLINE void make_tile(unsigned i, unsigned j)
{
    const unsigned *first = (const unsigned *)(const void *)it_input() + i * BAND * INNER;
    for (unsigned row = 0; row < BAND; row++, first += INNER) {
        unsigned sum = 0;
        for (unsigned k = 0; k < INNER; k++)
            sum += first[k] * columns[j].of[k];
        product[i].of[row][j] = sum;
    }
}

static unsigned work(unsigned worker)
{
    for (unsigned i = worker; i < BANDS; i += WORKERS)
        for (unsigned j = 0; j < COLUMNS; j++) {
            make_tile(i, j);
            it_yield();
        }
    return 0;
}

int main(void)
{
    if (!copy_columns())
        return 1;
    for (unsigned w = 0; w < WORKERS; w++)
        it_thread_create(work, w);
    for (unsigned w = 0; w < WORKERS; w++)
        it_thread_join(w + 1, 0);
    for (unsigned i = 0; i < BANDS; i++)
        it_put(product[i].of, sizeof product[i].of);
    return 0;
}
