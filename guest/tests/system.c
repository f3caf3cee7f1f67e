/* Descriptors of streams, sizes of malloc's blocks, and queries to the system. */
#include <ctype.h>
#include <errno.h>
#include <malloc.h>
#include <pthread.h>
#include <stdio.h>
#include <stdlib.h>
#include <unistd.h>

static void blocks(void)
{
    static const size_t sizes[] = { 1, 16, 17, 100, 2032, 2033, 5000, 100000 };
    for (unsigned k = 0; k < sizeof sizes / sizeof *sizes; k++) {
        void *block = malloc(sizes[k]);
        size_t usable = malloc_usable_size(block);
        printf("%d: %d %d\n", (int)sizes[k], usable >= sizes[k], usable < 2 * sizes[k] + 8192);
        free(block);
    }
    printf("of none: %d\n", (int)malloc_usable_size(NULL));
    struct mallinfo before = mallinfo();
    void *large = malloc(50000);
    struct mallinfo after = mallinfo();
    printf("more in use: %d\n", after.uordblks + after.hblkhd > before.uordblks + before.hblkhd);
    free(large);
    printf("option: %d\n", mallopt(M_MMAP_THRESHOLD, 1 << 20));
}

/* for all bytes, and for all values of a signed char */
static void classes(void)
{
    unsigned sums[13] = { 0 };
    for (int c = -128; c < 256; c++) {
        int is[] = { isalnum(c), isalpha(c), isblank(c), iscntrl(c), isdigit(c), isgraph(c), islower(c), isprint(c),
                     ispunct(c), isspace(c), isupper(c), isxdigit(c) };
        for (int k = 0; k < 12; k++)
            sums[k] = sums[k] * 3 + (is[k] != 0);
        if (c >= 0)
            sums[12] = sums[12] * 3 + (unsigned)(toupper(c) + 2 * tolower(c));
    }
    for (int k = 0; k < 13; k++)
        printf("class %d: %u\n", k, sums[k]);
}

int main(void)
{
    printf("%d %d %d\n", fileno(stdin), fileno(stdout), fileno(stderr));
    printf("page: %ld %d\n", sysconf(_SC_PAGESIZE), sysconf(_SC_PAGESIZE) == getpagesize());
    printf("processors: %d\n", sysconf(_SC_NPROCESSORS_ONLN) > 0);
    printf("threads, semaphores: %ld %ld\n", sysconf(_SC_THREADS), sysconf(_SC_SEMAPHORES));
    printf("reader-writer locks: %ld %ld\n", sysconf(_SC_READER_WRITER_LOCKS), (long)_POSIX_READER_WRITER_LOCKS);
    printf("rounds of destructors: %ld\n", sysconf(_SC_THREAD_DESTRUCTOR_ITERATIONS));
    errno = 0;
    long result = sysconf(-1);
    printf("no such name: %ld %d\n", result, errno == EINVAL);
    printf("process: %d %d\n", getpid() > 0, getppid() != getpid());
    printf("user: %d %d\n", getuid() == geteuid(), getgid() == getegid());
    printf("become who one is: %d %d\n", setuid(getuid()), setgid(getgid()));
    blocks();
    classes();
    return 0;
}
