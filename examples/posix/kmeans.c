/* k-means: four clusters of points, in whole numbers. A point is two bytes, x and y; an odd byte at the end is ignored.
   Each point goes to the nearest centre, the first of equally near ones, and each centre that has points moves to their
   mean, rounded to the nearest number; until no centre moves, or ROUNDS times. A line for each centre has its position,
   and how many points went to it last.

   cc -pthread -O2 kmeans.c && ./a.out <kmeans.in

   Layout: a block is a page of points, and a call (sched_yield) follows each. The sums of a block in a round have a
   page of their own, zero at first, and aren't on the stack, from which the worker's next step loads its return
   address. The last worker to reach the barrier moves the centres. Each round's centres have a page of their own, too:
   if it changes, all blocks of the next round are executed. So they are rounded, since a page of points seldom moves a
   centre to another whole number; and the numbers of points of the centres, which nearly every edit changes, are
   elsewhere. Squares are looked up in a table, since RV32I has no multiplication. */
#include <pthread.h>
#include <sched.h>
#include <stdalign.h>
#include <stdint.h>
#include <stdio.h>
#include <stdlib.h>

enum { PAGE = 4096, MOST_BLOCKS = 48, WORKERS = 4, CENTRES = 4, ROUNDS = 10 };

struct sum {
    uint32_t x, y, points;
};

struct share {
    alignas(PAGE) unsigned points; /* of a block; 0 after the last */
};

struct sums {
    alignas(PAGE) struct sum of[CENTRES];
};

struct centres {
    alignas(PAGE) unsigned x[CENTRES];
    unsigned y[CENTRES];
    int moved; /* whether a centre isn't where it was the round before */
};

static alignas(PAGE) unsigned char points[MOST_BLOCKS][PAGE];
static struct share shares[MOST_BLOCKS];
static struct sums sums[ROUNDS][MOST_BLOCKS];
static struct centres centres[ROUNDS + 1];
static alignas(PAGE) uint32_t squares[511]; /* of d at 255 + d */
static uint32_t sizes[ROUNDS + 1][CENTRES]; /* how many points went to each centre */
static pthread_barrier_t meeting;

static _Noreturn void give_up(const char *why)
{
    fprintf(stderr, "kmeans: %s\n", why);
    exit(EXIT_FAILURE);
}

static void begin(void)
{
    size_t left = fread(points, 2, sizeof points / 2, stdin);
    if (getchar() != EOF)
        give_up("there are too many points");
    for (unsigned b = 0; left > 0; b++) {
        shares[b].points = left < PAGE / 2 ? left : PAGE / 2;
        left -= shares[b].points;
    }
    for (int d = -255; d <= 255; d++)
        squares[255 + d] = (uint32_t)(d * d);
    for (unsigned c = 0; c < CENTRES; c++) {
        centres[0].x[c] = c & 1 ? 96 : 32;
        centres[0].y[c] = c & 2 ? 96 : 32;
    }
    centres[0].moved = 1;
}

static __attribute__((noinline)) void add_up(unsigned round, unsigned b)
{
    const unsigned char *point = points[b], *end = point + 2 * shares[b].points;
    const struct centres *at = &centres[round];
    struct sum *sum = sums[round][b].of;
    for (; point < end; point += 2) {
        unsigned nearest = 0;
        uint32_t least = UINT32_MAX;
        for (unsigned c = 0; c < CENTRES; c++) {
            uint32_t distance = squares[255 + point[0] - at->x[c]] + squares[255 + point[1] - at->y[c]];
            if (distance < least) {
                least = distance;
                nearest = c;
            }
        }
        sum[nearest].x += point[0];
        sum[nearest].y += point[1];
        sum[nearest].points++;
    }
}

static __attribute__((noinline)) void move_centres(unsigned round)
{
    const struct centres *from = &centres[round];
    struct centres *to = &centres[round + 1];
    for (unsigned c = 0; c < CENTRES; c++) {
        struct sum sum = { 0, 0, 0 };
        for (unsigned b = 0; b < MOST_BLOCKS && shares[b].points; b++) {
            sum.x += sums[round][b].of[c].x;
            sum.y += sums[round][b].of[c].y;
            sum.points += sums[round][b].of[c].points;
        }
        to->x[c] = sum.points ? (sum.x + sum.points / 2) / sum.points : from->x[c];
        to->y[c] = sum.points ? (sum.y + sum.points / 2) / sum.points : from->y[c];
        sizes[round + 1][c] = sum.points;
        to->moved |= to->x[c] != from->x[c] || to->y[c] != from->y[c];
    }
}

static void *work(void *argument)
{
    unsigned worker = (unsigned)(uintptr_t)argument;
    for (unsigned round = 0; round < ROUNDS && centres[round].moved; round++) {
        for (unsigned b = worker; b < MOST_BLOCKS && shares[b].points; b += WORKERS) {
            add_up(round, b);
            sched_yield();
        }
        if (pthread_barrier_wait(&meeting) == PTHREAD_BARRIER_SERIAL_THREAD)
            move_centres(round);
        pthread_barrier_wait(&meeting);
    }
    return NULL;
}

int main(void)
{
    pthread_t threads[WORKERS];
    begin();
    pthread_barrier_init(&meeting, NULL, WORKERS);
    for (unsigned w = 0; w < WORKERS; w++)
        if (pthread_create(&threads[w], NULL, work, (void *)(uintptr_t)w) != 0)
            give_up("a thread can't be created");
    for (unsigned w = 0; w < WORKERS; w++)
        pthread_join(threads[w], NULL);
    pthread_barrier_destroy(&meeting);
    unsigned last = ROUNDS;
    while (last > 1 && !centres[last - 1].moved)
        last--;
    for (unsigned c = 0; c < CENTRES; c++)
        printf("(%u, %u): %u\n", centres[last].x[c], centres[last].y[c], (unsigned)sizes[last][c]);
    return EXIT_SUCCESS;
}
