/* Counts how often each word occurs: a line `WORD COUNT` for each, in alphabetical order. A word is a run of letters, A to Z in either case,
   output in lower case; of a longer word the first 12 letters count. An input of more than 131,072 bytes ends the run with code 1, and so does
   one with more than 255 different words of one range of first letters.

   First each block, a page of the input, is counted into seven tables, by the range of a word's first letter: a-d, e-h, .. y-z. Then a thread
   for each range merges the blocks' tables for it and writes its lines. The main thread outputs them in order.

   What keeps an edit small:
   - each table has a page of its own. An edited word changes the tables of its old and its new range in one block. So that block is counted
     again, and then at most two of the seven ranges; the others' tables have the same bytes as before, though they were stored again.
   - a word that crosses a page's end belongs to the block in which it begins. A block would have to look at the page before to know whether its
     first letters are the rest of a word, and would be counted again after each edit there. Instead the main thread first looks at the bytes
     around the pages' ends, in a short step that every edit executes again, and stores on a page for each block where its words begin and end.
     These pages seldom change. A block whose last word continues on the next page still loads that page, so an edit there reaches two blocks.
   - each range's lines have a page of their own, so the main thread's steps that output them are reused for the other ranges. */
#include "ithreads.h"

enum { WORKERS = 4, BLOCKS = 32, RANGES = 7, LETTERS = 12, MOST = 255 };

struct IT_PAGE_ALIGNED share {
    unsigned first, end;
};

/* a word's letters, four in each number, the first in the highest byte, so words sort as their numbers do */
struct entry {
    unsigned letters[3], count;
};

struct IT_PAGE_ALIGNED table {
    unsigned number;
    struct entry of[MOST]; /* ascending */
};

struct IT_PAGE_ALIGNED lines {
    unsigned length;
    char bytes[MOST * (LETTERS + 12)];
};

static struct share shares[BLOCKS];
static struct table blocks[BLOCKS][RANGES], totals[RANGES];
static struct lines lines[RANGES];

/* 1 to 26, or 0 if the byte is no letter */
static unsigned letter(unsigned byte)
{
    unsigned place = (byte | 32) - 'a';
    return place < 26 ? place + 1 : 0;
}

/* where the words begin that begin on page b or later; `at` is that place for the page before */
static unsigned beginning(unsigned b, unsigned at, unsigned length)
{
    const unsigned char *input = it_input();
    unsigned place = b * IT_PAGE;
    if (place >= length)
        return length;
    if (at > place) /* a word covers the whole page before */
        return at;
    if (letter(input[place - 1]))
        while (place < length && letter(input[place]))
            place++;
    return place;
}

static IT_NOINLINE int deal(void)
{
    unsigned length = it_input_length(), place = 0;
    if (length > BLOCKS * IT_PAGE)
        return 0;
    for (unsigned b = 0; b * IT_PAGE < length; b++) {
        shares[b].first = place;
        shares[b].end = place = beginning(b + 1, place, length);
    }
    return 1;
}

static int compare(const unsigned *a, const unsigned *b)
{
    for (unsigned k = 0; k < 3; k++)
        if (a[k] != b[k])
            return a[k] < b[k] ? -1 : 1;
    return 0;
}

/* where the word is in the table, or where it belongs */
static unsigned find(const struct table *table, const unsigned *letters)
{
    unsigned low = 0, high = table->number;
    while (low < high) {
        unsigned middle = (low + high) >> 1;
        if (compare(table->of[middle].letters, letters) < 0)
            low = middle + 1;
        else
            high = middle;
    }
    return low;
}

static void add(struct table *table, const unsigned *letters, unsigned count)
{
    unsigned place = find(table, letters);
    struct entry *entry = &table->of[place];
    if (place < table->number && compare(entry->letters, letters) == 0) {
        entry->count += count;
        return;
    }
    if (table->number == MOST)
        it_exit(1);
    for (struct entry *to = &table->of[table->number]; to > entry; to--)
        *to = to[-1];
    for (unsigned k = 0; k < 3; k++)
        entry->letters[k] = letters[k];
    entry->count = count;
    table->number++;
}

/* whether there was something to count */
static IT_NOINLINE int count(unsigned b)
{
    const unsigned char *at = it_input() + shares[b].first, *end = it_input() + shares[b].end;
    while (at < end) {
        unsigned letters[3] = { 0, 0, 0 }, number = 0;
        for (unsigned next; at < end && (next = letter(*at)) != 0; at++, number++)
            if (number < LETTERS)
                letters[number >> 2] |= (next + 'a' - 1) << (24 - ((number & 3) << 3));
        if (number)
            add(&blocks[b][((letters[0] >> 24) - 'a') >> 2], letters, 1);
        else
            at++;
    }
    return shares[b].end != 0;
}

static unsigned count_blocks(unsigned worker)
{
    for (unsigned b = worker; b < BLOCKS && count(b); b += WORKERS)
        it_yield();
    return 0;
}

static char *write_word(char *to, const unsigned *letters)
{
    for (unsigned k = 0; k < LETTERS; k++) {
        char next = (char)(letters[k >> 2] >> (24 - ((k & 3) << 3)));
        if (next)
            *to++ = next;
    }
    return to;
}

static unsigned put_together(unsigned range)
{
    struct table *total = &totals[range];
    for (unsigned b = 0; b < BLOCKS; b++)
        for (unsigned k = 0; k < blocks[b][range].number; k++)
            add(total, blocks[b][range].of[k].letters, blocks[b][range].of[k].count);
    char *end = lines[range].bytes;
    for (unsigned k = 0; k < total->number; k++) {
        end = write_word(end, total->of[k].letters);
        *end++ = ' ';
        end = it_decimal(end, total->of[k].count);
        *end++ = '\n';
    }
    lines[range].length = (unsigned)(end - lines[range].bytes);
    return 0;
}

static IT_NOINLINE void put_lines(unsigned range)
{
    it_put_all(lines[range].bytes, lines[range].length);
}

int main(void)
{
    if (!deal())
        return 1;
    for (unsigned w = 0; w < WORKERS; w++)
        it_thread_create(count_blocks, w);
    for (unsigned w = 0; w < WORKERS; w++)
        it_thread_join(1 + w, 0);
    for (unsigned r = 0; r < RANGES; r++)
        it_thread_create(put_together, r);
    for (unsigned r = 0; r < RANGES; r++) {
        it_thread_join(1 + WORKERS + r, 0);
        put_lines(r);
    }
    return 0;
}
