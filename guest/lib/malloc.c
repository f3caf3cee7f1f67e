/* malloc and the functions related to it.

   The heap is a run of pages. A block of at most 2,032 bytes shares its page only with blocks of its size and of one
   thread: a thread takes some pages at a time, and makes its blocks there. So no two threads allocate from the same
   page, and each thread has its pages at places of its own, whatever others take. A larger block, or one that must be
   aligned to more than 16 bytes, has pages of its own. The map of pages is changed under the library's mutex; no call
   is needed to take or free a block on a thread's own page. Blocks that a thread frees on other threads' pages are
   collected, and moved to shared lists once there are enough, for any thread that needs such blocks. When a thread
   ends, its free blocks are moved there too. */
#include <errno.h>
#include <malloc.h>
#include <stdint.h>
#include <stdlib.h>
#include <string.h>
#include "library.h"

enum {
    MAX_PAGES = 1024,
    ALIGNMENT = 16,          /* blocks begin and end at multiples of it */
    MAX_SMALL = 2032,        /* bytes of a block that shares its page */
    SIZES = 15,
    PAGES_PER_REFILL = 8,    /* pages that a thread takes at a time for small blocks */
    TRANSFER_BYTES = 8192,   /* bytes of blocks of one size that are moved to or from the shared lists at a time */
    BLOCKS_PER_STEP = 16384, /* blocks that are visited in one step */
    BYTES_PER_STEP = 65536   /* bytes that are copied or cleared in one step */
};
static const unsigned short block_size[SIZES] = {
    16, 32, 48, 64, 96, 128, 192, 256, 384, 512, 672, 816, 1008, 1360, 2032
};

/* A free block. */
struct block { struct block *next; };

/* The start of a page of small blocks. */
struct page_header {
    unsigned short size, thread; /* index in block_size, and the thread that owns the page */
    unsigned padding[3];         /* so that blocks begin at a multiple of ALIGNMENT */
};

/* The data of a thread, on a page of its own. */
static struct IT_PAGE_ALIGNED arena {
    struct block *free[SIZES];       /* on its own pages */
    struct block *collected[SIZES];  /* on other threads' pages */
    unsigned collected_bytes[SIZES];
    char *next[SIZES], *end[SIZES];  /* the part of a page that was never allocated */
    char *pages, *pages_end;         /* pages that have no size yet */
} arenas[IT_THREADS];

/* Data under the library's mutex: the state of each page of the heap, and the shared lists. Only a program that
   allocates memory has this section, so that the linker's script knows whether to make a heap. */
enum { CLEAN, USED_BEFORE, FIRST_OF_SMALL, MORE_OF_LARGE, FIRST_OF_LARGE /* and above: plus further pages */ };
static __attribute__((section(".bss.it_takes_memory"))) struct IT_PAGE_ALIGNED common {
    unsigned short page[MAX_PAGES];
    struct block *free[SIZES];
    unsigned short count[MAX_PAGES]; /* for release_pages */
} common;

extern char it_heap[], it_heap_end[];

static unsigned heap_pages(void)
{
    return (unsigned)(it_heap_end - it_heap) / IT_PAGE;
}

static unsigned page_of(const void *block)
{
    return (unsigned)((const char *)block - it_heap) / IT_PAGE;
}

/* ---------------------------------------------------------------------------------------------- pages ---- */

/* Where a thread looks first: main's at the start; others in the second half, at places in the order of their number's
   bits reversed, so that the first few are far apart. */
static unsigned preferred_page(unsigned thread)
{
    unsigned pages = heap_pages(), slot = 0, bits = thread - 1;
    if (thread == 0)
        return 0;
    for (unsigned bit = 16; bit; bit >>= 1, bits >>= 1)
        slot += bits & 1 ? bit : 0;
    return pages / 2 + pages / (2 * IT_THREADS) * slot;
}

/* The number of free pages from `from` on, at most `max`; *dirty is nonzero if one of them was used before. */
static unsigned free_run(unsigned from, unsigned max, int *dirty)
{
    unsigned count = 0;
    *dirty = 0;
    while (count < max && common.page[from + count] <= USED_BEFORE)
        *dirty |= common.page[from + count++];
    return count;
}

/* Finds `count` free pages in a row, at or after `from` and before `to`, the first at a multiple of `align` pages in
   memory. Returns -1 if there are none. */
static int search(unsigned from, unsigned to, unsigned count, unsigned align, int *dirty)
{
    unsigned base = (unsigned)it_heap / IT_PAGE, page = ((base + from + align - 1) & ~(align - 1)) - base;
    while (page < to && page + count <= heap_pages()) {
        unsigned run = free_run(page, count, dirty);
        if (run == count)
            return (int)page;
        page = ((base + page + run + align) & ~(align - 1)) - base;
    }
    return -1;
}

static void mark_large(unsigned page, unsigned count)
{
    common.page[page] = (unsigned short)(FIRST_OF_LARGE + count - 1);
    for (unsigned k = 1; k < count; k++)
        common.page[page + k] = MORE_OF_LARGE;
}

static void mark_free(unsigned page, unsigned count)
{
    for (unsigned k = 0; k < count; k++)
        common.page[page + k] = USED_BEFORE;
}

static int find_pages(unsigned count, unsigned align, int *dirty)
{
    unsigned from = preferred_page(it_self.number);
    int page = search(from, heap_pages(), count, align, dirty);
    return page < 0 ? search(0, from, count, align, dirty) : page;
}

/* ------------------------------------------------------------------------------------------ when all is in use ---- */

/* The number of blocks on a full page of a size. */
static unsigned blocks_per_page(unsigned size)
{
    unsigned count = 0;
    for (unsigned bytes = sizeof(struct page_header) + block_size[size]; bytes <= IT_PAGE; bytes += block_size[size])
        count++;
    return count;
}

/* A list may have so many blocks that one step may not visit them all: so a call ends the step after each
   BLOCKS_PER_STEP blocks. */
static void end_long_step(unsigned done)
{
    if (done % BLOCKS_PER_STEP == 0)
        it_call(IT_CALL_YIELD, 0, 0);
}

/* Counts the free blocks of each page. A page with blocks that were never allocated counts too few. */
static void count_free(const struct block *block)
{
    for (unsigned done = 1; block; block = block->next, end_long_step(done++))
        common.count[page_of(block)]++;
}

/* Removes the blocks of wholly free pages from a list. */
static void remove_free_pages(struct block **list, unsigned per_page)
{
    for (unsigned done = 1; *list; end_long_step(done++))
        if (common.count[page_of(*list)] == per_page)
            *list = (*list)->next;
        else
            list = &(*list)->next;
}

/* Frees the pages whose blocks are all free, as far as the caller knows. Under the library's mutex. */
static void release_pages(struct arena *arena)
{
    mark_free(page_of(arena->pages), (unsigned)(arena->pages_end - arena->pages) / IT_PAGE);
    arena->pages = arena->pages_end;
    memset(common.count, 0, sizeof common.count);
    for (unsigned size = 0; size < SIZES; size++) {
        struct block **lists[] = { &arena->free[size], &arena->collected[size], &common.free[size] };
        unsigned per_page = blocks_per_page(size);
        for (unsigned k = 0; k < 3; k++)
            count_free(*lists[k]);
        for (unsigned k = 0; k < 3; k++)
            remove_free_pages(lists[k], per_page);
        for (unsigned page = 0; page < heap_pages(); page++) {
            if (common.count[page] == per_page)
                common.page[page] = USED_BEFORE;
            common.count[page] = 0;
        }
    }
}

/* ---------------------------------------------------------------------------------------------- small blocks ---- */

static struct arena *own_arena(void)
{
    return &arenas[it_self.number];
}

/* Moves one list to the front of another. */
static void splice(struct block **to, struct block **from)
{
    struct block **end = from;
    for (unsigned done = 1; *end; end_long_step(done++))
        end = &(*end)->next;
    *end = *to;
    *to = *from;
    *from = NULL;
}

/* At a thread's end: moves all its free blocks to the shared lists. */
static void release_heap(void)
{
    struct arena *arena = own_arena();
    it_lock_library();
    for (unsigned size = 0; size < SIZES; size++) {
        for (; arena->next[size] != arena->end[size]; arena->next[size] += block_size[size]) {
            struct block *block = (struct block *)arena->next[size];
            block->next = arena->free[size];
            arena->free[size] = block;
        }
        splice(&common.free[size], &arena->free[size]);
        splice(&common.free[size], &arena->collected[size]);
    }
    mark_free(page_of(arena->pages), (unsigned)(arena->pages_end - arena->pages) / IT_PAGE);
    it_unlock_library();
}

/* Takes pages for small blocks; fewer if there aren't as many in a row. Returns 0 if there are none. */
static int alloc_pages(struct arena *arena)
{
    int dirty, page = -1;
    unsigned count = PAGES_PER_REFILL;
    while (page < 0 && count) {
        page = find_pages(count, 1, &dirty);
        if (page < 0)
            count >>= 1;
    }
    if (page < 0)
        return 0;
    for (unsigned k = 0; k < count; k++)
        common.page[page + (int)k] = FIRST_OF_SMALL;
    arena->pages = it_heap + (unsigned)page * IT_PAGE;
    arena->pages_end = arena->pages + count * IT_PAGE;
    it_self.release_heap = release_heap;
    return 1;
}

/* Takes some blocks of a size from the shared list. */
static void take_shared(struct arena *arena, unsigned size)
{
    struct block **end = &common.free[size];
    for (unsigned bytes = 0; *end && bytes < TRANSFER_BYTES; bytes += block_size[size])
        end = &(*end)->next;
    arena->free[size] = common.free[size];
    common.free[size] = *end;
    *end = NULL;
    if (arena->free[size])
        it_self.release_heap = release_heap;
}

/* Takes shared blocks of a size, or pages. Returns 0 if there are none. */
static int refill(struct arena *arena, unsigned size)
{
    it_lock_library();
    take_shared(arena, size);
    int found = arena->free[size] || alloc_pages(arena);
    if (!found) {
        release_pages(arena);
        found = alloc_pages(arena);
    }
    it_unlock_library();
    return found;
}

/* Makes the next page one of blocks of a size. */
static void start_page(struct arena *arena, unsigned size)
{
    struct page_header *header = (struct page_header *)arena->pages;
    header->size = (unsigned short)size;
    header->thread = (unsigned short)it_self.number;
    arena->next[size] = (char *)(header + 1);
    arena->end[size] = arena->next[size];
    for (char *end = arena->end[size]; end + block_size[size] <= arena->pages + IT_PAGE; end += block_size[size])
        arena->end[size] = end + block_size[size];
    arena->pages += IT_PAGE;
}

static unsigned size_class(size_t bytes)
{
    unsigned size = 0;
    while (block_size[size] < bytes)
        size++;
    return size;
}

static void *alloc_small(size_t bytes)
{
    struct arena *arena = own_arena();
    unsigned size = size_class(bytes);
    if (!arena->free[size] && arena->next[size] == arena->end[size]) {
        if (arena->pages == arena->pages_end && !refill(arena, size)) {
            errno = ENOMEM;
            return NULL;
        }
        if (!arena->free[size])
            start_page(arena, size);
    }
    struct block *block = arena->free[size];
    if (block) {
        arena->free[size] = block->next;
    } else {
        block = (struct block *)arena->next[size];
        arena->next[size] += block_size[size];
    }
    return block;
}

/* Collects a block that is on another thread's page. */
static void collect(struct arena *arena, struct block *block, unsigned size)
{
    block->next = arena->collected[size];
    arena->collected[size] = block;
    it_self.release_heap = release_heap;
    arena->collected_bytes[size] += block_size[size];
    if (arena->collected_bytes[size] < TRANSFER_BYTES)
        return;
    arena->collected_bytes[size] = 0;
    it_lock_library();
    splice(&common.free[size], &arena->collected[size]);
    it_unlock_library();
}

static const struct page_header *header_of(const void *block)
{
    return (const struct page_header *)((unsigned)block & ~(IT_PAGE - 1u));
}

static void free_small(struct block *block)
{
    struct arena *arena = own_arena();
    const struct page_header *header = header_of(block);
    if (header->thread != it_self.number) {
        collect(arena, block, header->size);
        return;
    }
    block->next = arena->free[header->size];
    arena->free[header->size] = block;
}

/* ---------------------------------------------------------------------------------------------- large blocks ---- */

static void *alloc_large(size_t bytes, size_t align, int *dirty)
{
    unsigned count = (unsigned)((bytes + IT_PAGE - 1) / IT_PAGE);
    unsigned pages = align <= IT_PAGE ? 1 : (unsigned)(align / IT_PAGE);
    int page = -1;
    if (bytes <= MAX_PAGES * IT_PAGE) {
        it_lock_library();
        page = find_pages(count, pages, dirty);
        if (page < 0) {
            release_pages(own_arena());
            page = find_pages(count, pages, dirty);
        }
        if (page >= 0)
            mark_large((unsigned)page, count);
        it_unlock_library();
    }
    if (page < 0) {
        errno = ENOMEM;
        return NULL;
    }
    return it_heap + (unsigned)page * IT_PAGE;
}

/* The number of pages of a large block. */
static unsigned pages_of(const void *block)
{
    return common.page[page_of(block)] - (unsigned)FIRST_OF_LARGE + 1;
}

static int is_large(const void *block)
{
    return ((unsigned)block & (IT_PAGE - 1)) == 0;
}

static void free_large(void *block)
{
    it_lock_library();
    mark_free(page_of(block), pages_of(block));
    it_unlock_library();
}

/* Resizes a large block in place. Returns 0 if that isn't possible. */
static int resize_large(void *block, size_t bytes)
{
    unsigned page = page_of(block), old = pages_of(block), count = (unsigned)((bytes + IT_PAGE - 1) / IT_PAGE);
    int dirty, done = 1;
    if (count == old)
        return 1;
    it_lock_library();
    if (count < old)
        mark_free(page + count, old - count);
    else
        done = page + count <= heap_pages() && free_run(page + old, count - old, &dirty) == count - old;
    if (done)
        mark_large(page, count);
    it_unlock_library();
    return done;
}

/* ---------------------------------------------------------------------------------------------- the calls ---- */

static size_t chunk_size(size_t remaining)
{
    return remaining < BYTES_PER_STEP ? remaining : BYTES_PER_STEP;
}

/* Ends the step after each part of a block that is copied or cleared, except the first. */
static void end_step_after(size_t done)
{
    if (done)
        it_call(IT_CALL_YIELD, 0, 0);
}

void *malloc(size_t bytes)
{
    int dirty;
    return bytes <= MAX_SMALL ? alloc_small(bytes) : alloc_large(bytes, 1, &dirty);
}

void free(void *block)
{
    if (!block)
        return;
    if (is_large(block))
        free_large(block);
    else
        free_small(block);
}

/* Pages that were never used are zero. */
void *calloc(size_t count, size_t bytes)
{
    size_t total;
    int dirty = 1;
    if (__builtin_mul_overflow(count, bytes, &total)) {
        errno = ENOMEM;
        return NULL;
    }
    void *block = total <= MAX_SMALL ? alloc_small(total) : alloc_large(total, 1, &dirty);
    for (size_t done = 0; block && dirty && done < total; done += BYTES_PER_STEP) {
        memset((char *)block + done, 0, chunk_size(total - done));
        end_step_after(done);
    }
    return block;
}

/* With 0 bytes it frees the block and returns null, as glibc does. */
void *realloc(void *block, size_t bytes)
{
    if (!block)
        return malloc(bytes);
    if (bytes == 0) {
        free(block);
        return NULL;
    }
    size_t old = is_large(block) ? pages_of(block) * IT_PAGE : block_size[header_of(block)->size];
    if (is_large(block) ? bytes > MAX_SMALL && bytes <= MAX_PAGES * IT_PAGE && resize_large(block, bytes)
                        : bytes <= old && bytes > old / 2)
        return block;
    void *copy = malloc(bytes);
    if (!copy)
        return NULL;
    size_t total = old < bytes ? old : bytes;
    for (size_t done = 0; done < total; done += BYTES_PER_STEP) {
        memcpy((char *)copy + done, (char *)block + done, chunk_size(total - done));
        end_step_after(done);
    }
    free(block);
    return copy;
}

static int alloc_aligned(void **block, size_t align, size_t bytes)
{
    int dirty, saved_errno = errno;
    if (align < sizeof(void *) || (align & (align - 1)))
        return EINVAL;
    int small = align <= ALIGNMENT && bytes <= MAX_SMALL;
    void *allocated = small ? alloc_small(bytes) : alloc_large(bytes ? bytes : 1, align, &dirty);
    errno = saved_errno;
    if (!allocated)
        return ENOMEM;
    *block = allocated;
    return 0;
}

IT_REPLACEABLE int posix_memalign(void **block, size_t align, size_t bytes)
{
    return alloc_aligned(block, align, bytes);
}

void *aligned_alloc(size_t align, size_t bytes)
{
    void *block;
    int error = alloc_aligned(&block, align < sizeof(void *) ? sizeof(void *) : align, bytes);
    if (error == 0)
        return block;
    errno = error;
    return NULL;
}

IT_REPLACEABLE void *memalign(size_t align, size_t bytes)
{
    return aligned_alloc(align, bytes);
}

/* --------------------------------------------------------------------------------- what isn't in ISO C or POSIX ---- */

IT_REPLACEABLE size_t malloc_usable_size(void *block)
{
    return !block ? 0 : is_large(block) ? pages_of(block) * IT_PAGE : block_size[header_of(block)->size];
}

IT_REPLACEABLE void cfree(void *block)
{
    free(block);
}

/* Counts pages: a page of small blocks counts as fully in use. */
IT_REPLACEABLE struct mallinfo mallinfo(void)
{
    struct mallinfo info = { 0 };
    info.arena = heap_pages() * IT_PAGE;
    it_lock_library();
    for (unsigned page = 0; page < heap_pages(); page++) {
        if (common.page[page] >= FIRST_OF_LARGE) {
            info.hblks++;
            info.hblkhd += (common.page[page] - (unsigned)FIRST_OF_LARGE + 1) * IT_PAGE;
        }
        if (common.page[page] > USED_BEFORE)
            info.uordblks += IT_PAGE;
    }
    it_unlock_library();
    info.fordblks = info.arena - info.uordblks;
    return info;
}

/* There is nothing to set. */
IT_REPLACEABLE int mallopt(int what, int value)
{
    (void)what, (void)value;
    return 1;
}

/* No memory is returned to the system. */
IT_REPLACEABLE int malloc_trim(size_t bytes)
{
    (void)bytes;
    return 0;
}
