/* Matrix product: A times B, modulo 2^32. The input has B first, 128 rows of 16 numbers, and then up to 1,024 rows of
   A, 128 numbers each; a number has two bytes, the lower one first. For each band of 16 rows of the product, a line has
   its first and its last number and the sum of all.

   cc -pthread -O2 matrix.c && ./a.out <matrix.in

   Layout: a band of A is a page of the input. A tile of the product is a band by a column, and a call (sched_yield)
   follows each tile. A tile needs one column of B, and B is one page; so the main thread first copies each column to a
   page of its own. Then an edit of A reaches the tiles of one band, and one of B the tiles of one column. The workers
   format the lines, after all their tiles, each on a page of its own: if the main thread did, it would format all lines
   again. */
#include <pthread.h>
#include <sched.h>
#include <stdalign.h>
#include <stdint.h>
#include <stdio.h>
#include <stdlib.h>

enum { PAGE = 4096, INNER = 128, COLUMNS = 16, BAND = PAGE / 2 / INNER, MOST_BANDS = 64, WORKERS = 8 };

struct column {
    alignas(PAGE) uint16_t of[INNER];
};

struct band {
    alignas(PAGE) uint16_t rows[BAND][INNER];
};

struct share {
    alignas(PAGE) unsigned rows; /* of a band; 0 after the last */
};

struct tiles {
    alignas(PAGE) uint32_t of[COLUMNS][BAND];
};

struct line {
    alignas(PAGE) char text[80];
};

struct task {
    pthread_t thread;
    unsigned first; /* band; then every WORKERSth */
};

static alignas(PAGE) uint16_t b[INNER][COLUMNS];
static struct band a[MOST_BANDS];
static struct column columns[COLUMNS];
static struct share shares[MOST_BANDS];
static struct tiles product[MOST_BANDS];
static struct line lines[MOST_BANDS];

static _Noreturn void give_up(const char *why)
{
    fprintf(stderr, "matrix: %s\n", why);
    exit(EXIT_FAILURE);
}

static void read_matrices(void)
{
    if (fread(b, sizeof b, 1, stdin) != 1)
        give_up("there is no B");
    for (unsigned k = 0; k < INNER; k++)
        for (unsigned j = 0; j < COLUMNS; j++)
            columns[j].of[k] = b[k][j];
    size_t left = fread(a, sizeof a[0].rows[0], MOST_BANDS * BAND, stdin);
    if (getchar() != EOF)
        give_up("A has too many rows");
    for (unsigned i = 0; left > 0; i++) {
        shares[i].rows = left < BAND ? left : BAND;
        left -= shares[i].rows;
    }
}

static __attribute__((noinline)) void make_tile(unsigned i, unsigned j)
{
    const uint16_t *column = columns[j].of;
    for (unsigned row = 0; row < shares[i].rows; row++) {
        uint32_t sum = 0;
        for (unsigned k = 0; k < INNER; k++)
            sum += (uint32_t)a[i].rows[row][k] * column[k];
        product[i].of[j][row] = sum;
    }
}

static void write_line(unsigned i)
{
    uint32_t sum = 0;
    for (unsigned j = 0; j < COLUMNS; j++)
        for (unsigned row = 0; row < BAND; row++)
            sum += product[i].of[j][row];
    snprintf(lines[i].text, sizeof lines[i].text, "%2u: %u .. %u, sum %u\n", i, (unsigned)product[i].of[0][0],
             (unsigned)product[i].of[COLUMNS - 1][shares[i].rows - 1], (unsigned)sum);
}

static void *work(void *argument)
{
    const struct task *task = argument;
    for (unsigned i = task->first; i < MOST_BANDS && shares[i].rows; i += WORKERS)
        for (unsigned j = 0; j < COLUMNS; j++) {
            make_tile(i, j);
            sched_yield();
        }
    for (unsigned i = task->first; i < MOST_BANDS && shares[i].rows; i += WORKERS)
        write_line(i);
    return NULL;
}

int main(void)
{
    static struct task tasks[WORKERS];
    read_matrices();
    for (unsigned w = 0; w < WORKERS; w++) {
        tasks[w].first = w;
        if (pthread_create(&tasks[w].thread, NULL, work, &tasks[w]) != 0)
            give_up("a thread can't be created");
    }
    for (unsigned w = 0; w < WORKERS; w++)
        pthread_join(tasks[w].thread, NULL);
    for (unsigned i = 0; i < MOST_BANDS && shares[i].rows; i++)
        fputs(lines[i].text, stdout);
    return EXIT_SUCCESS;
}
