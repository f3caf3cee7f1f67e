/* Memory: allocating more than there is gives NULL, and freed memory can be allocated again. Each line is `yes`. */
#include <errno.h>
#include <sched.h>
#include <stdint.h>
#include <stdio.h>
#include <stdlib.h>
#include <string.h>

static void report(const char *what, int right)
{
    printf("%s: %s\n", what, right ? "yes" : "no");
}

/* A step may execute only so many instructions. */
static void yield_periodically(unsigned count)
{
    if (count % 1024 == 0)
        sched_yield();
}

/* Allocates as many blocks as there are, each with the address of the one before. */
static void **fill(size_t bytes)
{
    void **last = NULL, **block;
    for (unsigned count = 0; (block = malloc(bytes)) != NULL; yield_periodically(++count)) {
        memset(block, 0x55, bytes);
        *block = last;
        last = block;
    }
    return last;
}

static unsigned free_list(void **block)
{
    unsigned count = 0;
    for (void **before; block; block = before, yield_periodically(++count)) {
        before = *block;
        free(block);
    }
    return count;
}

static int is_zero(const char *bytes, size_t count)
{
    for (size_t k = 0; k < count; k++, yield_periodically((unsigned)k))
        if (bytes[k])
            return 0;
    return 1;
}

static void limits(void)
{
    volatile size_t most = SIZE_MAX, many = 65537;
    errno = 0;
    report("100 MB are too many", malloc(100000000) == NULL && errno == ENOMEM);
    errno = 0;
    report("as many as a size_t has, too", malloc(most) == NULL && errno == ENOMEM);
    errno = 0;
    report("a product that is too large", calloc(many, many) == NULL && errno == ENOMEM);
    char *kept = malloc(10);
    strcpy(kept, "kept");
    char *larger = realloc(kept, 100000000);
    report("realloc to too many", larger == NULL && strcmp(kept, "kept") == 0);
    free(larger ? larger : kept);
    free(NULL);
    void *one = malloc(0), *other = malloc(0);
    report("blocks of no bytes are two", one && other && one != other);
    free(one);
    free(other);
}

static void sizes(void)
{
    unsigned small = free_list(fill(24));
    report("small blocks, over 2 MiB of them", small > 2 * 1048576 / 32);
    report("and again as many", free_list(fill(24)) == small);
    void *large = malloc(2 * 1048576);
    report("then 2 MiB in one", large != NULL);
    free(large);
    unsigned middle = free_list(fill(1000));
    report("blocks of 1,000 bytes, over 2 MiB of them", middle > 2 * 1048576 / 1024);
    char *zeros = calloc(1048576, 1);
    report("1 MiB of zeros where they were", zeros && is_zero(zeros, 1048576));
    free(zeros);
}

static void grows(void)
{
    char *bytes = NULL;
    int kept = 1;
    for (size_t size = 1; size <= 1048576; size *= 2) {
        char *larger = realloc(bytes, size);
        if (!larger)
            break;
        bytes = larger;
        for (size_t k = 0; k < size / 2; k += 997)
            kept &= bytes[k] == (char)(k & 127);
        for (size_t k = 0; k < size; k++, yield_periodically((unsigned)k))
            bytes[k] = (char)(k & 127);
    }
    report("realloc keeps what it has, up to 1 MiB", kept && bytes);
    bytes = realloc(bytes, 100);
    report("and when it gets smaller", bytes && bytes[99] == 99);
    free(bytes);
}

static void alignment(void)
{
    int right = 1;
    for (size_t align = 8; align <= 65536; align *= 2) {
        void *one = aligned_alloc(align, align), *other = NULL;
        right &= one && (uintptr_t)one % align == 0;
        right &= posix_memalign(&other, align, 10) == 0 && (uintptr_t)other % align == 0;
        free(one);
        free(other);
    }
    report("alignments", right);
    void *block = NULL;
    report("an alignment that is none", posix_memalign(&block, 24, 10) == EINVAL && !block);
}

int main(void)
{
    limits();
    sizes();
    grows();
    alignment();
    return 0;
}
