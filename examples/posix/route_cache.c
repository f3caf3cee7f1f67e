/* Route cache: the lengths of trips over a map, with a cache that many threads read and few write. The input begins
   with the map, a page: for each of 256 places eight roads, each a byte for the place it leads to and one for its
   length. Then come the trips, each a byte for the start and one for the destination.

   cc -pthread -O2 route_cache.c && ./a.out <route_cache.in

   The cache has the shortest ways from a place to all others, once a request needed them. A request is 128 trips: a
   thread looks them up under the lock to read, along with other readers. If the cache doesn't have the place at which a
   trip begins, the thread releases the lock, finds the ways, enters them under the lock to write, and continues
   reading. The ways are the same whichever thread finds them, so the output is the same in any order. With -DMUTEX a
   mutex replaces the lock, to compare.

   Layout: a block is a page of trips, and its results have a page of their own. The ways from a place have a page in
   the cache, so entering a place is a difference only for the threads that use it. A thread finds ways on a page of its
   own: on the stack its next step would see them as a difference. */
#include <pthread.h>
#include <stdalign.h>
#include <stdint.h>
#include <stdio.h>
#include <stdlib.h>
#include <string.h>

enum { PAGE = 4096, PLACES = 256, ROADS = 8, NO_WAY = 65535 };
enum { MOST_BLOCKS = 64, IN_BLOCK = 2048, IN_REQUEST = 128, THREADS = 16 };

struct road {
    unsigned char to, length;
};

struct trip {
    unsigned char from, to;
};

struct ways {
    alignas(PAGE) uint16_t length[PLACES]; /* of the shortest way to each place, or NO_WAY */
    int known;
};

struct search {
    struct ways found;
    unsigned char queue[PLACES], waits[PLACES]; /* places whose roads have to be followed, and whether each is one */
};

struct block {
    alignas(PAGE) unsigned trips; /* 0 after the input */
    unsigned without, length;     /* trips without a way, and the length of the others */
    unsigned longest, which;      /* of these the first among the longest */
};

static struct {
    alignas(PAGE) struct road roads[PLACES][ROADS];
    struct trip trips[MOST_BLOCKS][IN_BLOCK];
} input;
static struct block blocks[MOST_BLOCKS];
static struct search searches[THREADS];
static struct ways cache[PLACES]; /* under the lock */

#ifndef MUTEX
static pthread_rwlock_t lock = PTHREAD_RWLOCK_INITIALIZER;
#define lock_to_read pthread_rwlock_rdlock
#define lock_to_write pthread_rwlock_wrlock
#define unlock pthread_rwlock_unlock
#else
static pthread_mutex_t lock = PTHREAD_MUTEX_INITIALIZER;
#define lock_to_read pthread_mutex_lock
#define lock_to_write pthread_mutex_lock
#define unlock pthread_mutex_unlock
#endif

static _Noreturn void give_up(const char *why)
{
    fprintf(stderr, "route_cache: %s\n", why);
    exit(EXIT_FAILURE);
}

static __attribute__((noinline)) void deal(unsigned trips)
{
    for (unsigned b = 0; b * IN_BLOCK < trips; b++) {
        unsigned left = trips - b * IN_BLOCK;
        blocks[b].trips = left < IN_BLOCK ? left : IN_BLOCK;
    }
}

/* Adds a block's trips from `at` on, up to the first whose ways aren't known or to the end; returns where that is. */
static __attribute__((noinline)) unsigned look_up(unsigned b, unsigned at, unsigned end)
{
    struct block *block = &blocks[b];
    for (; at < end && cache[input.trips[b][at].from].known; at++) {
        unsigned length = cache[input.trips[b][at].from].length[input.trips[b][at].to];
        if (length == NO_WAY) {
            block->without++;
            continue;
        }
        block->length += length;
        if (length > block->longest) {
            block->longest = length;
            block->which = at;
        }
    }
    return at;
}

/* A place's roads are followed again whenever a shorter way to it has been found. */
static __attribute__((noinline)) void find_ways(struct search *search, unsigned from)
{
    unsigned first = 0, behind = 1;
    memset(search->found.length, NO_WAY & 255, sizeof search->found.length);
    search->found.length[from] = 0;
    search->queue[0] = (unsigned char)from;
    while (first != behind) {
        unsigned place = search->queue[first++ % PLACES];
        search->waits[place] = 0;
        for (unsigned r = 0; r < ROADS; r++) {
            unsigned to = input.roads[place][r].to;
            unsigned length = search->found.length[place] + input.roads[place][r].length;
            if (length >= search->found.length[to])
                continue;
            search->found.length[to] = (uint16_t)length;
            if (!search->waits[to]) {
                search->waits[to] = 1;
                search->queue[behind++ % PLACES] = (unsigned char)to;
            }
        }
    }
}

/* Another thread may have entered the place meanwhile: then readers rely on its entry, and it stays. */
static __attribute__((noinline)) void enter(const struct search *search, unsigned from)
{
    if (!cache[from].known) {
        memcpy(cache[from].length, search->found.length, sizeof cache[from].length);
        cache[from].known = 1;
    }
}

static void serve(struct search *search, unsigned b, unsigned at, unsigned end)
{
    for (;;) {
        lock_to_read(&lock);
        at = look_up(b, at, end);
        unlock(&lock);
        if (at == end)
            return;
        unsigned from = input.trips[b][at].from;
        find_ways(search, from);
        lock_to_write(&lock);
        enter(search, from);
        unlock(&lock);
    }
}

static void *work(void *argument)
{
    unsigned thread = (unsigned)(uintptr_t)argument;
    for (unsigned b = thread; b < MOST_BLOCKS && blocks[b].trips; b += THREADS)
        for (unsigned at = 0, end = 0, trips = blocks[b].trips; at < trips; at = end) {
            end = trips - at < IN_REQUEST ? trips : at + IN_REQUEST;
            serve(&searches[thread], b, at, end);
        }
    return NULL;
}

static void print_sum(void)
{
    unsigned trips = 0, without = 0, longest = 0, which = 0;
    unsigned long long length = 0;
    for (unsigned b = 0; b < MOST_BLOCKS && blocks[b].trips; b++) {
        trips += blocks[b].trips;
        without += blocks[b].without;
        length += blocks[b].length;
        if (blocks[b].longest > longest) {
            longest = blocks[b].longest;
            which = b * IN_BLOCK + blocks[b].which;
        }
    }
    printf("%u trips, %llu in all, %u without a way\n", trips, length, without);
    if (longest)
        printf("the longest is %u, trip %u\n", longest, which);
}

int main(void)
{
    pthread_t threads[THREADS];
    unsigned length = fread(&input, 1, sizeof input, stdin);
    if (length < PAGE)
        give_up("there is no map");
    if (getchar() != EOF)
        give_up("there are too many trips");
    deal((length - PAGE) / sizeof(struct trip));
    for (unsigned t = 0; t < THREADS; t++)
        if (pthread_create(&threads[t], NULL, work, (void *)(uintptr_t)t) != 0)
            give_up("a thread can't be created");
    for (unsigned t = 0; t < THREADS; t++)
        pthread_join(threads[t], NULL);
    print_sum();
    return EXIT_SUCCESS;
}
