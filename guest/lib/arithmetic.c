/* Products and quotients of integers, for which RV32I has no instructions: the compiler calls these functions, and so
   do its own functions for float and double. They replace the compiler's, which take several times as long if a number
   is small or if the divisor is 10, as in code that prints numbers. Division by 0 gives all ones, and the number as the
   remainder, as on RISC-V.

   RV32IM has instructions for 32 bits, and the compiler makes products of 64 bits from them. So there only the
   quotients of 64 bits are needed. */

#include "library.h"

unsigned long long __udivdi3(unsigned long long number, unsigned long long divisor);
unsigned long long __umoddi3(unsigned long long number, unsigned long long divisor);
long long __divdi3(long long number, long long divisor);
long long __moddi3(long long number, long long divisor);

#ifndef __riscv_mul

unsigned __mulsi3(unsigned a, unsigned b);
unsigned __udivsi3(unsigned number, unsigned divisor);
unsigned __umodsi3(unsigned number, unsigned divisor);
int __divsi3(int number, int divisor);
int __modsi3(int number, int divisor);
unsigned long long __muldi3(unsigned long long a, unsigned long long b);

/* ---------------------------------------------------------------------------------------------- products ---- */

/* Takes two bits of the smaller factor in each iteration, the lowest first. It is written in assembly, because the
   compiler's functions for double rely on it to change no registers but a0 to a3. */
__asm__(".section .text.__mulsi3,\"ax\",@progbits\n"
        ".globl __mulsi3\n"
        ".type __mulsi3, @function\n"
        "__mulsi3:\n\t"
        "mv a2, a0\n\t"
        "bgeu a2, a1, 1f\n\t"
        "mv a2, a1\n\t"
        "mv a1, a0\n"
        "1:\tli a0, 0\n"
        "2:\tandi a3, a1, 1\n\t"
        "beqz a3, 3f\n\t"
        "add a0, a0, a2\n"
        "3:\tandi a3, a1, 2\n\t"
        "slli a2, a2, 1\n\t"
        "beqz a3, 4f\n\t"
        "add a0, a0, a2\n"
        "4:\tsrli a1, a1, 2\n\t"
        "slli a2, a2, 1\n\t"
        "bnez a1, 2b\n\t"
        "ret\n\t"
        ".size __mulsi3, .-__mulsi3\n");

/* All 64 bits of a product: takes two bits of the smaller factor (a2) in each iteration, the highest first. The larger
   one is in a3, two times it in a4 and a5, three times it in a6 and a7. C would take about half as much again, and most
   of the time to print a double is spent here. */
unsigned long long it_wide_product(unsigned a, unsigned b);
__asm__(".section .text.it_wide_product,\"ax\",@progbits\n"
        ".globl it_wide_product\n"
        ".type it_wide_product, @function\n"
        "it_wide_product:\n\t"
        "mv a3, a0\n\t"
        "mv a2, a1\n\t"
        "bgeu a3, a2, 1f\n\t"
        "mv a3, a1\n\t"
        "mv a2, a0\n"
        "1:\tli a0, 0\n\t"
        "li a1, 0\n\t"
        "beqz a2, 9f\n\t"
        "slli a4, a3, 1\n\t"
        "srli a5, a3, 31\n\t"
        "add a6, a4, a3\n\t"
        "sltu a7, a6, a3\n\t"
        "add a7, a7, a5\n\t"
        "li t0, 16\n\t"
        "srli t1, a2, 16\n\t" /* skips leading zeros */
        "bnez t1, 7f\n\t"
        "slli a2, a2, 16\n\t"
        "addi t0, t0, -8\n"
        "7:\tsrli t1, a2, 24\n\t"
        "bnez t1, 2f\n\t"
        "slli a2, a2, 8\n\t"
        "addi t0, t0, -4\n"
        "2:\tsrli t1, a2, 30\n\t"
        "bnez t1, 3f\n\t"
        "slli a2, a2, 2\n\t"
        "addi t0, t0, -1\n\t"
        "j 2b\n"
        "3:\tsrli t1, a0, 30\n\t" /* four times the product, and the next two bits */
        "slli a1, a1, 2\n\t"
        "or a1, a1, t1\n\t"
        "slli a0, a0, 2\n\t"
        "slli t1, a2, 1\n\t"
        "bltz a2, 5f\n\t"
        "bgez t1, 4f\n\t"
        "add a0, a0, a3\n\t"
        "sltu t1, a0, a3\n\t"
        "add a1, a1, t1\n"
        "4:\tslli a2, a2, 2\n\t"
        "addi t0, t0, -1\n\t"
        "bnez t0, 3b\n"
        "9:\tret\n"
        "5:\tbltz t1, 6f\n\t"
        "add a0, a0, a4\n\t"
        "sltu t1, a0, a4\n\t"
        "add a1, a1, a5\n\t"
        "add a1, a1, t1\n\t"
        "j 4b\n"
        "6:\tadd a0, a0, a6\n\t"
        "sltu t1, a0, a6\n\t"
        "add a1, a1, a7\n\t"
        "add a1, a1, t1\n\t"
        "j 4b\n\t"
        ".size it_wide_product, .-it_wide_product\n"
        ".text\n");

unsigned long long __muldi3(unsigned long long a, unsigned long long b)
{
    unsigned a_high = (unsigned)(a >> 32), b_high = (unsigned)(b >> 32), a_low = (unsigned)a, b_low = (unsigned)b;
    unsigned high = 0;
    if (a_high)
        high += __mulsi3(a_high, b_low);
    if (b_high)
        high += __mulsi3(a_low, b_high);
    return it_wide_product(a_low, b_low) + ((unsigned long long)high << 32);
}

/* ---------------------------------------------------------------------------------------- quotients of 32 bits ---- */

static inline unsigned divide(unsigned number, unsigned divisor, unsigned *remainder)
{
    unsigned quotient = 0, bit = 1;
    if (divisor == 10)
        return it_div10(number, remainder);
    if (divisor == 16) {
        *remainder = number & 15;
        return number >> 4;
    }
    if (divisor == 0) {
        *remainder = number;
        return ~0u;
    }
    while (divisor < number && !(divisor >> 31)) {
        divisor <<= 1;
        bit <<= 1;
    }
    for (; bit; bit >>= 1, divisor >>= 1)
        if (number >= divisor) {
            number -= divisor;
            quotient |= bit;
        }
    *remainder = number;
    return quotient;
}

unsigned __udivsi3(unsigned number, unsigned divisor)
{
    unsigned remainder;
    return divide(number, divisor, &remainder);
}

unsigned __umodsi3(unsigned number, unsigned divisor)
{
    unsigned remainder;
    divide(number, divisor, &remainder);
    return remainder;
}

static unsigned magnitude(int number)
{
    return number < 0 ? 0u - (unsigned)number : (unsigned)number;
}

/* C's quotient is rounded towards zero, and the remainder has the sign of the number. */
int __divsi3(int number, int divisor)
{
    unsigned remainder, quotient = divide(magnitude(number), magnitude(divisor), &remainder);
    return divisor && (number < 0) != (divisor < 0) ? (int)(0u - quotient) : (int)quotient;
}

int __modsi3(int number, int divisor)
{
    unsigned remainder;
    divide(magnitude(number), magnitude(divisor), &remainder);
    return number < 0 ? (int)(0u - remainder) : (int)remainder;
}

#endif

/* ---------------------------------------------------------------------------------------- quotients of 64 bits ---- */

/* A tenth, from 16 bits of the number at a time. */
static unsigned long long div10_long(unsigned long long number, unsigned *remainder)
{
    unsigned high = (unsigned)(number >> 32), low = (unsigned)number, parts[4], rest = 0;
    const unsigned digits[4] = { high >> 16, high & 0xFFFF, low >> 16, low & 0xFFFF };
    for (unsigned k = 0; k < 4; k++)
        parts[k] = it_div10(rest << 16 | digits[k], &rest);
    *remainder = rest;
    return (unsigned long long)(parts[0] << 16 | parts[1]) << 32 | (parts[2] << 16 | parts[3]);
}

#ifdef __riscv_mul

/* Quotients of 32 bits, by 0 and by 10 are computed here, and all others by the compiler's function: the linker
   redirects other calls of it to __wrap___udivdi3. */
unsigned long long __real___udivdi3(unsigned long long number, unsigned long long divisor);
unsigned long long __wrap___udivdi3(unsigned long long number, unsigned long long divisor);
#define __udivdi3 __wrap___udivdi3

static unsigned long long divide_long(unsigned long long number, unsigned long long divisor,
                                      unsigned long long *remainder)
{
    unsigned long long quotient;
    unsigned rest;
    if (divisor == 0) {
        *remainder = number;
        return ~0ull;
    }
    if (!((number | divisor) >> 32)) {
        *remainder = (unsigned)number % (unsigned)divisor;
        return (unsigned)number / (unsigned)divisor;
    }
    if (divisor == 10) {
        quotient = div10_long(number, &rest);
        *remainder = rest;
        return quotient;
    }
    quotient = __real___udivdi3(number, divisor);
    *remainder = number - quotient * divisor;
    return quotient;
}

#else

static unsigned long long divide_long(unsigned long long number, unsigned long long divisor,
                                      unsigned long long *remainder)
{
    unsigned long long quotient = 0, bit = 1;
    unsigned rest;
    if (!((number | divisor) >> 32)) {
        quotient = divide((unsigned)number, (unsigned)divisor, &rest);
        *remainder = rest;
        return divisor ? quotient : ~0ull;
    }
    if (divisor == 10) {
        quotient = div10_long(number, &rest);
        *remainder = rest;
        return quotient;
    }
    *remainder = number;
    if (divisor == 0)
        return ~0ull;
    while (divisor < number && !(divisor >> 63)) {
        divisor <<= 1;
        bit <<= 1;
    }
    for (; bit; bit >>= 1, divisor >>= 1)
        if (number >= divisor) {
            number -= divisor;
            quotient |= bit;
        }
    *remainder = number;
    return quotient;
}

#endif

unsigned long long __udivdi3(unsigned long long number, unsigned long long divisor)
{
    unsigned long long remainder;
    return divide_long(number, divisor, &remainder);
}

unsigned long long __umoddi3(unsigned long long number, unsigned long long divisor)
{
    unsigned long long remainder;
    divide_long(number, divisor, &remainder);
    return remainder;
}

static unsigned long long magnitude_long(long long number)
{
    return number < 0 ? 0ull - (unsigned long long)number : (unsigned long long)number;
}

long long __divdi3(long long number, long long divisor)
{
    unsigned long long remainder, quotient = divide_long(magnitude_long(number), magnitude_long(divisor), &remainder);
    return divisor && (number < 0) != (divisor < 0) ? (long long)(0ull - quotient) : (long long)quotient;
}

long long __moddi3(long long number, long long divisor)
{
    unsigned long long remainder;
    divide_long(magnitude_long(number), magnitude_long(divisor), &remainder);
    return number < 0 ? (long long)(0ull - remainder) : (long long)remainder;
}
