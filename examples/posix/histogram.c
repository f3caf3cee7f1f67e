/* Histogram: how often each level of red, green and blue occurs in an image. A pixel is four bytes: red, green, blue,
   and one that is ignored; bytes after the last whole pixel are ignored too. For each colour, a line has its most
   frequent level, and how many pixels are in each eighth of the levels.

   cc -pthread -O2 histogram.c && ./a.out <histogram.in

   Layout: a block is a page of the image. Its counts have a page of their own, which also has its number of pixels, for
   this block only; a call (sched_yield) follows each block. A worker adds up its blocks by itself, and holds the mutex
   only to add its sums to the totals, since after an edit the totals differ for all workers that come later. */
#include <pthread.h>
#include <sched.h>
#include <stdalign.h>
#include <stdint.h>
#include <stdio.h>
#include <stdlib.h>

enum { PAGE = 4096, MOST_BLOCKS = 256, WORKERS = 4, COLOURS = 3, LEVELS = 256, BARS = 8 };

struct counts {
    uint32_t of[COLOURS][LEVELS];
};

struct block {
    alignas(PAGE) uint32_t pixels; /* 0 after the image's end */
    struct counts counts;
};

struct sums {
    alignas(PAGE) struct counts counts;
};

static alignas(PAGE) unsigned char image[MOST_BLOCKS][PAGE];
static struct block blocks[MOST_BLOCKS];
static struct sums sums[WORKERS], totals;
static pthread_mutex_t mutex = PTHREAD_MUTEX_INITIALIZER; /* of totals */

static _Noreturn void give_up(const char *why)
{
    fprintf(stderr, "histogram: %s\n", why);
    exit(EXIT_FAILURE);
}

static void read_image(void)
{
    size_t left = fread(image, 1, sizeof image, stdin);
    if (getchar() != EOF)
        give_up("the image is too long");
    for (unsigned b = 0; left > 0; b++) {
        size_t here = left < PAGE ? left : PAGE;
        blocks[b].pixels = here / 4;
        left -= here;
    }
}

static __attribute__((noinline)) void count_block(unsigned b)
{
    const unsigned char *pixel = image[b], *end = pixel + 4 * blocks[b].pixels;
    for (; pixel < end; pixel += 4)
        for (unsigned colour = 0; colour < COLOURS; colour++)
            blocks[b].counts.of[colour][pixel[colour]]++;
}

static __attribute__((noinline)) void add(struct counts *sum, const struct counts *counts)
{
    for (unsigned colour = 0; colour < COLOURS; colour++)
        for (unsigned level = 0; level < LEVELS; level++)
            sum->of[colour][level] += counts->of[colour][level];
}

static void *work(void *argument)
{
    unsigned worker = (unsigned)(uintptr_t)argument;
    for (unsigned b = worker; b < MOST_BLOCKS && blocks[b].pixels; b += WORKERS) {
        count_block(b);
        sched_yield();
    }
    for (unsigned b = worker; b < MOST_BLOCKS && blocks[b].pixels; b += WORKERS)
        add(&sums[worker].counts, &blocks[b].counts);
    pthread_mutex_lock(&mutex);
    add(&totals.counts, &sums[worker].counts);
    pthread_mutex_unlock(&mutex);
    return NULL;
}

static void print_colour(const char *name, const uint32_t *counts)
{
    unsigned peak = 0;
    for (unsigned level = 1; level < LEVELS; level++)
        if (counts[level] > counts[peak])
            peak = level;
    printf("%-5s %3u:", name, peak);
    for (unsigned bar = 0; bar < BARS; bar++) {
        uint32_t pixels = 0;
        for (unsigned level = bar * (LEVELS / BARS); level < (bar + 1) * (LEVELS / BARS); level++)
            pixels += counts[level];
        printf(" %u", (unsigned)pixels);
    }
    printf("\n");
}

int main(void)
{
    static const char *const names[COLOURS] = { "red", "green", "blue" };
    pthread_t threads[WORKERS];
    read_image();
    for (unsigned w = 0; w < WORKERS; w++)
        if (pthread_create(&threads[w], NULL, work, (void *)(uintptr_t)w) != 0)
            give_up("a thread can't be created");
    for (unsigned w = 0; w < WORKERS; w++)
        pthread_join(threads[w], NULL);
    for (unsigned colour = 0; colour < COLOURS; colour++)
        print_colour(names[colour], totals.counts.of[colour]);
    return EXIT_SUCCESS;
}
