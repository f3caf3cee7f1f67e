/* A bounded queue of four places: a semaphore counts the free ones, another the taken ones, and a mutex guards it. Two producers put the
   numbers of the input's 32-byte items into it, three consumers take them and note each item's checksum. A number above all items tells a
   consumer to stop. Main puts the checksums out. A round has some sixteen thousand short steps. */
#include "ithreads.h"

enum { PLACES = 4, FREE = 0, TAKEN = 1, GUARD = 0, PRODUCERS = 2, CONSUMERS = 3, ITEM = 32, MOST = 2048, STOP = MOST };

static unsigned ring[PLACES], head, tail;
static unsigned checksums[MOST] IT_PAGE_ALIGNED;

static void enqueue(unsigned item)
{
    it_sem_wait(FREE);
    it_mutex_lock(GUARD);
    ring[head++ % PLACES] = item;
    it_mutex_unlock(GUARD);
    it_sem_post(TAKEN);
}

static unsigned dequeue(void)
{
    it_sem_wait(TAKEN);
    it_mutex_lock(GUARD);
    unsigned item = ring[tail++ % PLACES];
    it_mutex_unlock(GUARD);
    it_sem_post(FREE);
    return item;
}

static unsigned items(void)
{
    unsigned count = (it_input_length() + ITEM - 1) / ITEM;
    return count < MOST ? count : MOST;
}

static unsigned producer(unsigned which)
{
    for (unsigned item = which; item < items(); item += PRODUCERS)
        enqueue(item);
    return 0;
}

static unsigned consumer(unsigned taken)
{
    for (unsigned item; (item = dequeue()) != STOP; taken++) {
        unsigned a = 1, b = 0;
        for (unsigned i = 0; i < ITEM; i++) {
            a += it_input()[item * ITEM + i];
            b = (b << 1 | b >> 31) + a;
        }
        checksums[item] = b << 16 ^ b >> 16 ^ a;
    }
    return taken;
}

int main(void)
{
    it_sem_init(FREE, PLACES);
    for (unsigned j = 0; j < PRODUCERS; j++)
        it_thread_create(producer, j);
    for (unsigned j = 0; j < CONSUMERS; j++)
        it_thread_create(consumer, 0);
    for (unsigned j = 1; j <= PRODUCERS; j++)
        it_thread_join(j, 0);
    for (unsigned j = 0; j < CONSUMERS; j++)
        enqueue(STOP);
    for (unsigned j = 1; j <= CONSUMERS; j++)
        it_thread_join(PRODUCERS + j, 0);
    it_put_all(checksums, items() * 4);
    return 0;
}
