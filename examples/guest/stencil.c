/* Smooths a row of 65,536 cells four times: each cell becomes a quarter of the sum of its left neighbour, twice itself and its right
   neighbour, rounded down; beyond the ends are zeros. A cell is a number of 16 bits: at first 256 times a byte of the input, or 0 after
   the input's end; the output has the upper byte of each.

   A block is 4,096 cells, one page of the input. Each of four workers smooths four blocks and meets the others at a barrier after each
   sweep. A sweep goes from one of two rows of cells to the other, so that no thread stores to cells that others load in the same sweep.

   What keeps an edit small:
   - a block needs one cell of each neighbour. If it loaded it from the neighbour's cells, then after an edit anywhere in a block its
     neighbours would be executed again in each sweep too. So each block also stores its first and its last cell to a page each, and
     neighbours load only these pages. They change once the edit has reached the block's end, one cell further in each sweep. The two
     don't share a page, or the neighbour that needs the first cell would also see a new last cell.
   - there is a call after each block; and the barrier's result, which says which thread came last, follows from the order of the steps,
     which an edit doesn't change.
   - no thread reads the input's length: the pages of the input are zero after its end, and may be loaded. */
#include "ithreads.h"

enum { WORKERS = 4, BLOCKS = 16, CELLS = IT_PAGE, SWEEPS = 4, MEETING = 0 };

struct IT_PAGE_ALIGNED block {
    unsigned short cells[CELLS];
};

struct IT_PAGE_ALIGNED cell {
    unsigned short is;
};

static struct block blocks[2][BLOCKS];
static struct cell firsts[2][BLOCKS + 1]; /* of block b at b; after the last are zeros */
static struct cell lasts[2][BLOCKS + 1];  /* of block b at b + 1; before the first are zeros */
static unsigned char packed[BLOCKS][IT_PAGE] IT_PAGE_ALIGNED;

static IT_NOINLINE void fill(unsigned b)
{
    const unsigned char *bytes = it_input() + b * IT_PAGE;
    for (unsigned k = 0; k < CELLS; k++)
        blocks[0][b].cells[k] = (unsigned short)(bytes[k] << 8);
    firsts[0][b].is = (unsigned short)(bytes[0] << 8);
    lasts[0][b + 1].is = (unsigned short)(bytes[CELLS - 1] << 8);
}

static unsigned smoothed(unsigned left, unsigned cell, unsigned right)
{
    return (left + 2 * cell + right) >> 2;
}

static IT_NOINLINE void smooth(unsigned sweep, unsigned b)
{
    const unsigned short *from = blocks[sweep & 1][b].cells;
    unsigned short *to = blocks[~sweep & 1][b].cells;
    unsigned left = lasts[sweep & 1][b].is, cell = from[0];
    firsts[~sweep & 1][b].is = (unsigned short)smoothed(left, cell, from[1]);
    for (unsigned k = 1; k < CELLS; k++) {
        unsigned right = from[k];
        to[k - 1] = (unsigned short)smoothed(left, cell, right);
        left = cell;
        cell = right;
    }
    cell = smoothed(left, cell, firsts[sweep & 1][b + 1].is);
    to[CELLS - 1] = (unsigned short)cell;
    lasts[~sweep & 1][b + 1].is = (unsigned short)cell;
}

static IT_NOINLINE void pack(unsigned b)
{
    for (unsigned k = 0; k < CELLS; k++)
        packed[b][k] = (unsigned char)(blocks[SWEEPS & 1][b].cells[k] >> 8);
}

static unsigned work(unsigned worker)
{
    for (unsigned b = worker; b < BLOCKS; b += WORKERS) {
        fill(b);
        it_yield();
    }
    it_barrier_wait(MEETING);
    for (unsigned sweep = 0; sweep < SWEEPS; sweep++) {
        for (unsigned b = worker; b < BLOCKS; b += WORKERS) {
            smooth(sweep, b);
            it_yield();
        }
        it_barrier_wait(MEETING);
    }
    for (unsigned b = worker; b < BLOCKS; b += WORKERS) {
        pack(b);
        it_yield();
    }
    return 0;
}

int main(void)
{
    it_barrier_init(MEETING, WORKERS);
    for (unsigned w = 0; w < WORKERS; w++)
        it_thread_create(work, w);
    for (unsigned w = 0; w < WORKERS; w++)
        it_thread_join(w + 1, 0);
    for (unsigned b = 0; b < BLOCKS; b++)
        it_put(packed[b], IT_PAGE);
    return 0;
}
