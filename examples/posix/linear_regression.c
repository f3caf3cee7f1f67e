/* Linear regression: the line y = a + b x that fits a cloud of points best, and how well (r squared). A point is two
   bytes, x and y; an odd byte at the end is ignored.

   cc -pthread -O2 linear_regression.c && ./a.out <linear_regression.in

   The main thread reads the points, a page at a time, and posts the semaphore of the worker whose turn it is, so that
   reading and adding up overlap. A block without points ends a worker.

   Layout: a block is a page of points; its sums are stored once, at its end, next to the other blocks' sums, which no
   thread loads before all are complete. Sums of squares of one block fit into 32 bits, those of all into 64. */
#include <inttypes.h>
#include <pthread.h>
#include <semaphore.h>
#include <stdalign.h>
#include <stdint.h>
#include <stdio.h>
#include <stdlib.h>

enum { PAGE = 4096, MOST_BLOCKS = 256, WORKERS = 4 };

struct share {
    alignas(PAGE) uint32_t points; /* of a block; 0 after the last */
};

struct sums {
    uint32_t points, x, y, xx, yy, xy;
};

static alignas(PAGE) unsigned char points[MOST_BLOCKS][PAGE];
static struct share shares[MOST_BLOCKS + WORKERS];
static alignas(PAGE) struct sums sums[MOST_BLOCKS];
static sem_t filled[WORKERS];

static __attribute__((noinline)) void add_up(unsigned b)
{
    const unsigned char *point = points[b], *end = point + 2 * shares[b].points;
    struct sums sum = { .points = shares[b].points };
    for (; point < end; point += 2) {
        uint32_t x = point[0], y = point[1];
        sum.x += x;
        sum.y += y;
        sum.xx += x * x;
        sum.yy += y * y;
        sum.xy += x * y;
    }
    sums[b] = sum;
}

static void *work(void *argument)
{
    unsigned worker = (unsigned)(uintptr_t)argument;
    for (unsigned b = worker;; b += WORKERS) {
        sem_wait(&filled[worker]);
        if (shares[b].points == 0)
            return NULL;
        add_up(b);
    }
}

static _Noreturn void give_up(const char *why)
{
    fprintf(stderr, "linear_regression: %s\n", why);
    exit(EXIT_FAILURE);
}

static void read_points(void)
{
    unsigned b = 0;
    size_t count;
    while (b < MOST_BLOCKS && (count = fread(points[b], 1, PAGE, stdin) / 2) > 0) {
        shares[b].points = count;
        sem_post(&filled[b % WORKERS]);
        b++;
    }
    if (getchar() != EOF)
        give_up("there are too many points");
    for (unsigned w = 0; w < WORKERS; w++)
        sem_post(&filled[(b + w) % WORKERS]);
}

static void print_line(void)
{
    uint64_t n = 0, x = 0, y = 0, xx = 0, yy = 0, xy = 0;
    for (unsigned b = 0; b < MOST_BLOCKS && sums[b].points; b++) {
        n += sums[b].points;
        x += sums[b].x;
        y += sums[b].y;
        xx += sums[b].xx;
        yy += sums[b].yy;
        xy += sums[b].xy;
    }
    double down = (double)(n * xx - x * x), side = (double)(n * yy - y * y), both = (double)(n * xy) - (double)(x * y);
    printf("points %" PRIu64 "\nx %" PRIu64 " xx %" PRIu64 "\n", n, x, xx);
    printf("y %" PRIu64 " yy %" PRIu64 "\nxy %" PRIu64 "\n", y, yy, xy);
    if (down > 0 && side > 0)
        printf("a %.6f\nb %.6f\nr squared %.6f\n", ((double)y - both / down * (double)x) / (double)n, both / down,
               both / down * (both / side));
}

int main(void)
{
    pthread_t threads[WORKERS];
    for (unsigned w = 0; w < WORKERS; w++)
        if (sem_init(&filled[w], 0, 0) != 0 || pthread_create(&threads[w], NULL, work, (void *)(uintptr_t)w) != 0)
            give_up("a thread can't be created");
    read_points();
    for (unsigned w = 0; w < WORKERS; w++) {
        pthread_join(threads[w], NULL);
        sem_destroy(&filled[w]);
    }
    print_line();
    return EXIT_SUCCESS;
}
