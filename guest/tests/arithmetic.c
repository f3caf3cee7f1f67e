/* Products, quotients and remainders of integers of 32 and 64 bits, and doubles, of random numbers of all sizes. */
#include <inttypes.h>
#include <sched.h>
#include <stdint.h>
#include <stdio.h>

static uint64_t state = 88172645463325252ULL;

static uint64_t drawn(void)
{
    state ^= state << 13;
    state ^= state >> 7;
    state ^= state << 17;
    return state >> (state >> 58);
}

static uint64_t narrow(uint32_t a, uint32_t b)
{
    int32_t c = (int32_t)a, d = (int32_t)b;
    uint64_t sum = (uint32_t)(a * b);
    if (b == 0)
        return sum;
    sum = sum * 31 + a / b;
    sum = sum * 31 + a % b;
    if (c == INT32_MIN && d == -1)
        return sum;
    sum = sum * 31 + (uint32_t)(c / d);
    return sum * 31 + (uint32_t)(c % d);
}

static uint64_t wide(uint64_t a, uint64_t b)
{
    int64_t c = (int64_t)a, d = (int64_t)b;
    uint64_t sum = a * b;
    if (b == 0)
        return sum;
    sum = sum * 31 + a / b;
    sum = sum * 31 + a % b;
    if (c == INT64_MIN && d == -1)
        return sum;
    sum = sum * 31 + (uint64_t)(c / d);
    return sum * 31 + (uint64_t)(c % d);
}

static uint64_t real(uint64_t a, uint64_t b)
{
    double x = (double)(int64_t)a, y = (double)(b | 1);
    float f = (float)x, g = (float)y;
    union { double real; uint64_t bits; } one = { x * y - x / y + y }, other = { (double)(f * g + f / g) };
    return one.bits * 31 + other.bits;
}

int main(void)
{
    static const uint64_t by[] = {
        1, 2, 3, 7, 10, 16, 100, 1000, 0xFFFF, 0x10000, 0x80000000, 0xFFFFFFFF, 0x100000000, UINT64_MAX
    };
    uint64_t sums[4] = { 0 };
    for (int k = 0; k < 1500; k++) {
        uint64_t a = drawn(), b = drawn();
        sums[0] = sums[0] * 31 + narrow((uint32_t)a, (uint32_t)b);
        sums[1] = sums[1] * 31 + wide(a, b);
        sums[2] = sums[2] * 31 + real(a, b);
        b = by[k % (int)(sizeof by / sizeof by[0])];
        sums[3] = sums[3] * 31 + narrow((uint32_t)a, (uint32_t)b) + wide(a, b);
        if (k % 50 == 0)
            sched_yield();
    }
    for (int k = 0; k < 4; k++)
        printf("%016" PRIx64 "\n", sums[k]);
    printf("%" PRIu64 " %" PRId64 " %u %d\n", UINT64_MAX, INT64_MIN, 4294967295u, -2147483647 - 1);
    return 0;
}
