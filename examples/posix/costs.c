/* The costs of some lines of C in a guest. Each is between two calls of sched_yield, so that it is a step of its own,
   and an empty step follows it: examples/posix/check subtracts that from it for the table in guest/README.md.
   Everything is volatile, or else the compiler would compute it. */
#include <sched.h>
#include <stdint.h>
#include <stdio.h>
#include <stdlib.h>
#include <string.h>

#define COST(what, statement) do { sched_yield(); statement; sched_yield(); } while (0)

static volatile uint32_t small = 200, large = 1234567890, number;
static volatile uint64_t long_small = 123456, long_large = 1234567890123, long_number;
static volatile double one = 12.345678, other = 3.5, real;
static unsigned char from[4096], to[4096];
static unsigned numbers[100];
static void *volatile memory;
static void *(*volatile copy)(void *, const void *, size_t) = memcpy;

static int ascending(const void *a, const void *b)
{
    unsigned x = *(const unsigned *)a, y = *(const unsigned *)b;
    return x < y ? -1 : x > y;
}

int main(void)
{
    for (unsigned k = 0; k < 100; k++)
        numbers[k] = k * 37 % 101;
    COST("a product of two numbers below 256", number = small * small);
    COST("a product of two numbers of 31 bits", number = large * large);
    COST("a quotient of 31 bits by 8", number = large / small);
    COST("a quotient of 31 bits by the constant 10", number = large / 10);
    COST("a product of 41 bits by 17", long_number = long_large * long_small);
    COST("a quotient of 41 bits by 17", long_number = long_large / long_small);
    COST("a sum of two doubles", real = one + other);
    COST("a product of two doubles", real = one * other);
    COST("a quotient of two doubles", real = one / other);
    COST("`printf` of `%u`, three digits", printf("%u\n", (unsigned)small));
    COST("`printf` of `%u`, ten digits", printf("%u\n", (unsigned)large));
    COST("`printf` of `%.6f`, eight digits", printf("%.6f\n", one));
    COST("`fputs` of 13 bytes", fputs("hello, world\n", stdout));
    COST("`memcpy` of a page to a page", copy(to, from, sizeof to));
    COST("`malloc` of 100 bytes, and `free`", (memory = malloc(100), free(memory)));
    COST("`qsort` of 100 numbers", qsort(numbers, 100, sizeof numbers[0], ascending));
    return EXIT_SUCCESS;
}
