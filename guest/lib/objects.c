/* The machine's numbers for mutexes, semaphores, barriers and conditions.

   For each kind, a table on a page of its own has each object's address at its number. A call looks the object up there
   and doesn't load from the object: next to a mutex is the data that it guards, and the step that ends with the lock
   would have read that. The search begins at a place computed from the address, so that the numbers hardly depend on
   which object comes first. Entries are added and removed under the library's mutex; an entry that is found without it
   is right, since it doesn't change while the object is in use. */
#include <stdio.h>
#include "library.h"
#include "table.h"

static struct table tables[4];

int it_number(enum it_kind kind, const void *object)
{
    struct table *table = &tables[kind];
    unsigned slot;
    int number = find_object(table, (unsigned)object, &slot);
    if (number >= 0)
        return number;
    it_lock_library();
    number = find_object(table, (unsigned)object, &slot);
    if (number < 0 && slot < IT_PROGRAM_OBJECTS) {
        number = (int)slot;
        table->object[slot] = (unsigned)object;
        if (kind == IT_SEMAPHORE) /* an earlier semaphore with this number may have had a value */
            it_call(IT_CALL_SEM_INIT, slot, 0);
    }
    it_unlock_library();
    return number;
}

unsigned it_number_or_end(enum it_kind kind, const void *object)
{
    static const char *const messages[] = {
        "more than 63 mutexes are in use", "more than 63 semaphores are in use", "more than 63 barriers are in use",
        "more than 63 conditions are in use"
    };
    int number = it_number(kind, object);
    if (number < 0)
        it_abort_with(messages[kind]);
    return (unsigned)number;
}

void it_free_number(enum it_kind kind, const void *object)
{
    struct table *table = &tables[kind];
    unsigned slot;
    it_lock_library();
    int number = find_object(table, (unsigned)object, &slot);
    if (number >= 0)
        table->object[number] = DELETED;
    it_unlock_library();
}
