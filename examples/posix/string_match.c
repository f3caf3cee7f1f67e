/* String match: where each of some keys occurs in a text. The input begins with the keys, a line for each, and an empty
   line after the last; then comes the text. A line for each key has how often it occurs, and the offsets of the first
   and of the last place, from the input's beginning. There are at most 8 keys of at most 32 bytes.

   cc -pthread -O2 string_match.c && ./a.out <string_match.in

   Layout: a block is a page of the input. A free thread takes the next block: a counter under a mutex, on a page of its
   own. After an edit the threads come in the order of the run before, so each gets the same blocks. A match may
   continue on the next page, so the main thread copies the start of that page to a page for the block, where the block
   also keeps what it finds: on the stack the thread's next step would see it as a difference. */
#include <pthread.h>
#include <stdalign.h>
#include <stdint.h>
#include <stdio.h>
#include <stdlib.h>
#include <string.h>

enum { PAGE = 4096, MOST_BLOCKS = 256, WORKERS = 4, MOST_KEYS = 8, MOST_BYTES = 32 };

struct found {
    uint32_t count, first, last;
};

struct block {
    alignas(PAGE) unsigned first, end; /* where a match may begin in the block; end is 0 after the input */
    unsigned char next[MOST_BYTES];    /* the bytes after the block; zeros after the input */
    struct found found[MOST_KEYS];
};

struct key {
    unsigned length;
    unsigned char bytes[MOST_BYTES];
};

struct keys {
    alignas(PAGE) unsigned number;
    struct key of[MOST_KEYS];
    unsigned char begins[256]; /* for each byte, a bit for each key that begins with it */
};

static alignas(PAGE) unsigned char input[MOST_BLOCKS + 1][PAGE]; /* the last page is zeros */
static struct block blocks[MOST_BLOCKS];
static struct keys keys;
static pthread_mutex_t mutex = PTHREAD_MUTEX_INITIALIZER;
static struct {
    alignas(PAGE) unsigned block;
} next; /* to be taken; under the mutex */

static _Noreturn void give_up(const char *why)
{
    fprintf(stderr, "string_match: %s\n", why);
    exit(EXIT_FAILURE);
}

/* returns where the text begins */
static unsigned read_keys(void)
{
    const char *line = (const char *)input[0], *limit = line + PAGE, *end;
    while ((end = memchr(line, '\n', (size_t)(limit - line))) != NULL && end != line) {
        struct key *key = &keys.of[keys.number];
        key->length = (unsigned)(end - line);
        if (keys.number == MOST_KEYS || key->length > MOST_BYTES)
            give_up("too many keys, or one is too long");
        memcpy(key->bytes, line, key->length);
        keys.begins[key->bytes[0]] |= 1u << keys.number++;
        line = end + 1;
    }
    if (!end || keys.number == 0)
        give_up("there are no keys, or no empty line behind them");
    return (unsigned)(end + 1 - (const char *)input[0]);
}

static __attribute__((noinline)) void deal(unsigned text, unsigned length)
{
    for (unsigned b = 0; b * PAGE < length; b++) {
        unsigned left = length - b * PAGE;
        blocks[b].first = b == 0 ? text : 0;
        blocks[b].end = left < PAGE ? left : PAGE;
        memcpy(blocks[b].next, input[b + 1], MOST_BYTES);
    }
}

static inline int matches(const struct key *key, const unsigned char *bytes, const unsigned char *after, unsigned at)
{
    for (unsigned k = 0; k < key->length; k++)
        if (key->bytes[k] != (at + k < PAGE ? bytes[at + k] : after[at + k - PAGE]))
            return 0;
    return 1;
}

static __attribute__((noinline)) void search(unsigned b)
{
    const unsigned char *bytes = input[b];
    for (unsigned at = blocks[b].first, end = blocks[b].end; at < end; at++)
        for (unsigned k = 0, left = keys.begins[bytes[at]]; left != 0; k++, left >>= 1)
            if ((left & 1) && matches(&keys.of[k], bytes, blocks[b].next, at)) {
                struct found *found = &blocks[b].found[k];
                found->last = b * PAGE + at;
                if (found->count++ == 0)
                    found->first = found->last;
            }
}

static void *work(void *argument)
{
    for (;;) {
        pthread_mutex_lock(&mutex);
        unsigned b = next.block++;
        pthread_mutex_unlock(&mutex);
        if (b >= MOST_BLOCKS || blocks[b].end == 0)
            return argument;
        search(b);
    }
}

int main(void)
{
    pthread_t threads[WORKERS];
    unsigned length = fread(input, 1, MOST_BLOCKS * PAGE, stdin);
    if (getchar() != EOF)
        give_up("the input is too long");
    deal(read_keys(), length);
    for (unsigned w = 0; w < WORKERS; w++)
        if (pthread_create(&threads[w], NULL, work, NULL) != 0)
            give_up("a thread can't be created");
    for (unsigned w = 0; w < WORKERS; w++)
        pthread_join(threads[w], NULL);
    for (unsigned k = 0; k < keys.number; k++) {
        struct found all = { 0, 0, 0 };
        for (unsigned b = 0; b < MOST_BLOCKS && blocks[b].end; b++)
            if (blocks[b].found[k].count) {
                all.first = all.count ? all.first : blocks[b].found[k].first;
                all.last = blocks[b].found[k].last;
                all.count += blocks[b].found[k].count;
            }
        printf("%.*s: %u", (int)keys.of[k].length, (const char *)keys.of[k].bytes, (unsigned)all.count);
        if (all.count)
            printf(", from %u to %u", (unsigned)all.first, (unsigned)all.last);
        printf("\n");
    }
    return EXIT_SUCCESS;
}
