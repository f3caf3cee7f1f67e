/* Word count with a reduce step: how many different words a text has, and which ten of them occur most often. A word is
   a run of letters a to z, in upper or lower case; words with the same first 12 letters are the same.

   cc -pthread -O2 word_count.c && ./a.out <word_count.in

   First eight threads count words, block by block, each block into eight tables by ranges of the first letter (map).
   When all blocks are counted, which the last thread signals by a condition, each thread merges the tables of one range
   and sorts them (reduce). The main thread takes the first ten of all.

   Layout: a block is a page of the text, followed by a call (sched_yield), and each of its tables has a page of its
   own: an edited word changes the tables of one or two ranges, and the other ranges aren't merged again. A word that
   crosses a page's end belongs to the block in which it begins; the main thread stores where that is on a page for each
   block, so that no block looks at the page before. */
#include <pthread.h>
#include <sched.h>
#include <stdalign.h>
#include <stdint.h>
#include <stdio.h>
#include <stdlib.h>

enum { PAGE = 4096, MOST_BLOCKS = 48, THREADS = 8, LETTERS = 12, SLOTS = 128, MOST_WORDS = 1024, TOP = 10 };

struct share {
    alignas(PAGE) unsigned first, end; /* of a block's words, in the text */
};

/* a word is a number: five bits for each letter, the first one highest, so words sort as their numbers do */
struct entry {
    uint64_t word; /* 0: the entry is free */
    uint32_t count;
};

struct table {
    alignas(PAGE) struct entry entries[SLOTS];
};

struct range {
    alignas(PAGE) struct entry entries[MOST_WORDS];
    unsigned number;
};

static alignas(PAGE) unsigned char text[MOST_BLOCKS * PAGE];
static struct share shares[MOST_BLOCKS];
static struct table tables[MOST_BLOCKS][THREADS];
static struct range ranges[THREADS];
static pthread_mutex_t mutex = PTHREAD_MUTEX_INITIALIZER;
static pthread_cond_t all_counted = PTHREAD_COND_INITIALIZER;
static alignas(PAGE) unsigned counting = THREADS; /* threads that haven't finished their blocks; under the mutex */

static _Noreturn void give_up(const char *why)
{
    fprintf(stderr, "word_count: %s\n", why);
    exit(EXIT_FAILURE);
}

/* 1 to 26, or 0 if the byte is no letter */
static inline unsigned letter(unsigned byte)
{
    unsigned place = (byte | 32) - 'a';
    return place < 26 ? place + 1 : 0;
}

static __attribute__((noinline)) void deal(unsigned length)
{
    unsigned place = 0;
    for (unsigned b = 0; b * PAGE < length; b++) {
        shares[b].first = place;
        if (place < (b + 1) * PAGE)
            place = (b + 1) * PAGE < length ? (b + 1) * PAGE : length;
        if (letter(text[place - 1]))
            while (place < length && letter(text[place]))
                place++;
        shares[b].end = place;
    }
}

/* adds to the count of a word in a table of `number` entries, a power of 2; returns whether there was room */
static inline int add(struct entry *entries, unsigned number, uint64_t word, uint32_t count)
{
    unsigned slot = (unsigned)(word >> 32) ^ (unsigned)word;
    slot ^= slot >> 20 ^ slot >> 10;
    for (unsigned tries = 0; tries < number; tries++, slot++) {
        struct entry *entry = &entries[slot & (number - 1)];
        if (entry->word == 0)
            entry->word = word;
        if (entry->word == word) {
            entry->count += count;
            return 1;
        }
    }
    return 0;
}

static __attribute__((noinline)) void count_block(unsigned b)
{
    const unsigned char *at = text + shares[b].first, *end = text + shares[b].end;
    while (at < end) {
        uint64_t word = 0;
        unsigned letters = 0;
        for (unsigned next; at < end && (next = letter(*at)) != 0; at++)
            if (letters < LETTERS) {
                word = word << 5 | next;
                letters++;
            }
        if (letters == 0) {
            at++;
            continue;
        }
        for (; letters < LETTERS; letters++)
            word <<= 5;
        unsigned first = (unsigned)(word >> 55) - 1;
        if (!add(tables[b][first * 5 >> 4].entries, SLOTS, word, 1))
            give_up("too many different words on a page");
    }
}

/* the more frequent one first, and of equally frequent ones the first in alphabetical order */
static int by_count(const void *one, const void *other)
{
    const struct entry *a = one, *b = other;
    if (a->count != b->count)
        return a->count > b->count ? -1 : 1;
    return a->word < b->word ? -1 : a->word > b->word;
}

static void reduce(unsigned range)
{
    struct range *to = &ranges[range];
    for (unsigned b = 0; b < MOST_BLOCKS && shares[b].end; b++)
        for (const struct entry *from = tables[b][range].entries; from < tables[b][range].entries + SLOTS; from++)
            if (from->word && !add(to->entries, MOST_WORDS, from->word, from->count))
                give_up("too many different words");
    for (unsigned k = 0; k < MOST_WORDS; k++)
        if (to->entries[k].word)
            to->entries[to->number++] = to->entries[k];
    qsort(to->entries, to->number, sizeof to->entries[0], by_count);
}

static void *work(void *argument)
{
    unsigned thread = (unsigned)(uintptr_t)argument;
    for (unsigned b = thread; b < MOST_BLOCKS && shares[b].end; b += THREADS) {
        count_block(b);
        sched_yield();
    }
    pthread_mutex_lock(&mutex);
    if (--counting == 0)
        pthread_cond_broadcast(&all_counted);
    while (counting > 0)
        pthread_cond_wait(&all_counted, &mutex);
    pthread_mutex_unlock(&mutex);
    reduce(thread);
    return NULL;
}

static void print_top(void)
{
    struct entry top[THREADS * TOP];
    unsigned words = 0, number = 0;
    for (unsigned t = 0; t < THREADS; t++) {
        words += ranges[t].number;
        for (unsigned k = 0; k < TOP && k < ranges[t].number; k++)
            top[number++] = ranges[t].entries[k];
    }
    qsort(top, number, sizeof top[0], by_count);
    printf("%u words\n", words);
    for (unsigned k = 0; k < TOP && k < number; k++) {
        char word[LETTERS + 1] = "";
        for (unsigned place = 0, next; place < LETTERS; place++)
            if ((next = (unsigned)(top[k].word >> (5 * (LETTERS - 1 - place))) & 31) != 0)
                word[place] = (char)('a' - 1 + next);
        printf("%6u %s\n", (unsigned)top[k].count, word);
    }
}

int main(void)
{
    pthread_t threads[THREADS];
    unsigned length = fread(text, 1, sizeof text, stdin);
    if (getchar() != EOF)
        give_up("the text is too long");
    deal(length);
    for (unsigned t = 0; t < THREADS; t++)
        if (pthread_create(&threads[t], NULL, work, (void *)(uintptr_t)t) != 0)
            give_up("a thread can't be created");
    for (unsigned t = 0; t < THREADS; t++)
        pthread_join(threads[t], NULL);
    print_top();
    return EXIT_SUCCESS;
}
