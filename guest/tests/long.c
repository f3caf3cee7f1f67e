/* A computation without a call for a long time: in loops, in recursion, and in jumps through a table. */
#include <stdio.h>
#include <stdlib.h>
#include <string.h>

static unsigned fib(unsigned number)
{
    return number < 2 ? number : fib(number - 1) + fib(number - 2);
}

static unsigned table(const unsigned char *code)
{
    static void *const places[] = { &&add, &&shift, &&back, &&end };
    unsigned sum = 1, left = 20000, at = 0;
    goto *places[code[at]];
add:
    sum += 7;
    goto *places[code[++at]];
shift:
    sum = sum << 1 | sum >> 31;
    goto *places[code[++at]];
back:
    at = --left ? 0 : at + 1;
    goto *places[code[at]];
end:
    return sum;
}

static int compare(const void *one, const void *other)
{
    const unsigned *a = one, *b = other;
    return (*a > *b) - (*a < *b);
}

int main(void)
{
    static unsigned numbers[2000];
    unsigned seed = 1;
    double sum = 0;
    for (unsigned k = 0; k < 2000; k++)
        numbers[k] = seed = (seed << 5) + seed + 13;
    qsort(numbers, 2000, sizeof *numbers, compare);
    printf("%u %u\n", numbers[0], numbers[1999]);
    for (unsigned k = 1; k <= 300000; k++)
        seed = seed * 5 + (seed >> 3) + k;
    printf("%u\n", seed);
    for (unsigned k = 1; k <= 500; k++)
        sum += 1.0 / k;
    printf("%.9f %u %u\n", sum, fib(20), table((const unsigned char *)"\0\1\1\0\2\3"));
    return 0;
}
