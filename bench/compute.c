/* A guest that computes: 100 million instructions of RV32I. It draws numbers, adds each into a table of four pages, and
   counts by a byte of the table that the number picks. At its end it puts out a sum of the table. */

#include "host.h"

enum { TABLE = 4096, COUNTS = 256, CHUNKS = 8, DRAWS = 517500 };

static word table[TABLE];
static word counts[COUNTS];

static word chunk(word x)
{
    for (word i = 0; i < DRAWS; i++) {
        x = draw(x);
        word *entry = &table[x % TABLE];
        *entry += x >> 7;
        byte picked = ((const byte *)table)[x >> 18];
        if (picked < 200)
            counts[picked]++;
        else
            x += i;
    }
    return x;
}

static word sum(const word *words, word count)
{
    word total = 0;
    for (word i = 0; i < count; i++)
        total = (total << 1 | total >> 31) ^ words[i];
    return total;
}

void _start(void)
{
    word x = 2463534242u;
    for (word i = 0; i < CHUNKS; i++) {
        x = chunk(x);
        yield();
    }
    finish(sum(table, TABLE) ^ sum(counts, COUNTS) ^ x);
}
