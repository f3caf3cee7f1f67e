/* A table of numbered objects: each object's address is at its number. */
#ifndef IT_TABLE_H
#define IT_TABLE_H

#include "library.h"

enum { EMPTY = 0, DELETED = 1 };

struct IT_PAGE_ALIGNED table { unsigned object[IT_PROGRAM_OBJECTS]; };

static unsigned first_slot(unsigned object)
{
    unsigned slot = (object >> 2 ^ object >> 8 ^ object >> 14) & 63;
    return slot == IT_PROGRAM_OBJECTS ? 0 : slot;
}

/* Returns the number of an object, or -1 if it has none. *slot is a free one, or IT_PROGRAM_OBJECTS. */
static int find_object(const struct table *table, unsigned object, unsigned *slot)
{
    unsigned index = first_slot(object);
    *slot = IT_PROGRAM_OBJECTS;
    for (unsigned k = 0; k < IT_PROGRAM_OBJECTS; k++) {
        if (table->object[index] == object)
            return (int)index;
        if (table->object[index] <= DELETED && *slot == IT_PROGRAM_OBJECTS)
            *slot = index;
        if (table->object[index] == EMPTY)
            return -1;
        if (++index == IT_PROGRAM_OBJECTS)
            index = 0;
    }
    return -1;
}

#endif
