/* Packs the input. It is divided into items of 1,024 bytes; the last may be shorter. In each item every byte is replaced by its
   difference to the byte before, modulo 256, and the first stays as it is; then runs of equal bytes, up to 255 long, are written as two
   bytes, the run's length and the byte. The output has each item's packed length, in two bytes, the lower first, and the packed item.

   A reader takes the differences, two packers pack, and the main thread outputs, in order. Items go through four slots. One semaphore
   counts the free slots, another the filled ones; the packers take the next number under a mutex, and the main thread waits by a
   condition until the item that it needs next is packed, since a packer may finish a later one first.

   What keeps an edit small:
   - the reader copies an item to its slot, so that a packer loads one item and not the page of the input, which has four.
   - item k always goes through slot k mod 4, and each slot's bytes have a page of their own. So an edited item reaches one step of a
     packer and the step that outputs it.
   - a slot is used again and again, and a page counts as a whole: if a packed item is shorter than before the edit, bytes of an older
     one stay after it, and the steps that output the slot's next items see a difference until a longer item covers it. They take some
     30 instructions each. Clearing the rest of the slot would avoid that, and take some thousands of instructions for each item.
   - the numbers under the mutex say which items are taken and packed, and nothing about their content. They have a page of their own,
     and locks are held for some ten instructions.
   - the reader has the length in a register, so all of its steps are executed again when the length changes; the packers' are still
     reused, since they depend only on the slots' bytes. */
#include "ithreads.h"

enum { PACKERS = 2, SLOTS = 4, ITEM = 1024, RUN = 255 };
enum semaphore { FREE, FILLED };
enum { GUARD = 0, PACKED = 0 };

struct IT_PAGE_ALIGNED item {
    unsigned length; /* 0: the end */
    unsigned char bytes[ITEM];
};

struct IT_PAGE_ALIGNED packed {
    unsigned length; /* including the two bytes before the runs; 0: the end */
    unsigned char bytes[IT_PAGE - 4];
};

struct IT_PAGE_ALIGNED guarded {
    unsigned next;         /* the item that a packer takes next */
    unsigned ready[SLOTS]; /* one more than the number of the last item packed in the slot */
};

static struct item items[SLOTS];
static struct packed packed[SLOTS];
static struct guarded guarded; /* by GUARD */

static IT_NOINLINE void fill(unsigned slot, unsigned first, unsigned length)
{
    const unsigned char *from = it_input() + first;
    unsigned before = 0;
    for (unsigned k = 0; k < length; k++) {
        items[slot].bytes[k] = (unsigned char)(from[k] - before);
        before = from[k];
    }
    items[slot].length = length;
}

/* reads the input, and then fills an item of no bytes for each packer */
static unsigned read_input(unsigned length)
{
    for (unsigned k = 0, first = 0, ends = 0; ends < PACKERS; k++) {
        unsigned left = length - first, part = left < ITEM ? left : ITEM;
        it_sem_wait(FREE);
        fill(k % SLOTS, first, part);
        it_sem_post(FILLED);
        first += part;
        ends += part == 0;
    }
    return 0;
}

/* whether the item has bytes */
static IT_NOINLINE int pack(unsigned slot)
{
    const unsigned char *from = items[slot].bytes, *end = from + items[slot].length;
    unsigned char *to = packed[slot].bytes + 2;
    while (from < end) {
        unsigned char byte = *from++, run = 1;
        for (; from < end && *from == byte && run < RUN; from++)
            run++;
        *to++ = run;
        *to++ = byte;
    }
    unsigned length = (unsigned)(to - packed[slot].bytes);
    packed[slot].bytes[0] = (unsigned char)(length - 2);
    packed[slot].bytes[1] = (unsigned char)((length - 2) >> 8);
    packed[slot].length = items[slot].length ? length : 0;
    return items[slot].length != 0;
}

static unsigned work(unsigned packer)
{
    (void)packer;
    for (int more = 1; more;) {
        it_sem_wait(FILLED);
        it_mutex_lock(GUARD);
        unsigned k = guarded.next++;
        it_mutex_unlock(GUARD);
        more = pack(k % SLOTS);
        it_mutex_lock(GUARD);
        guarded.ready[k % SLOTS] = k + 1;
        it_cond_signal(PACKED);
        it_mutex_unlock(GUARD);
    }
    return 0;
}

/* outputs the items, up to the first end */
static void put_items(void)
{
    for (unsigned k = 0;; k++) {
        it_mutex_lock(GUARD);
        while (guarded.ready[k % SLOTS] != k + 1)
            it_cond_wait(PACKED, GUARD);
        it_mutex_unlock(GUARD);
        unsigned length = packed[k % SLOTS].length;
        if (!length)
            return;
        it_put(packed[k % SLOTS].bytes, length);
        it_sem_post(FREE);
    }
}

int main(void)
{
    it_sem_init(FREE, SLOTS);
    it_thread_create(read_input, it_input_length());
    for (unsigned p = 0; p < PACKERS; p++)
        it_thread_create(work, p);
    put_items();
    for (unsigned p = 0; p <= PACKERS; p++)
        it_thread_join(p + 1, 0);
    return 0;
}
