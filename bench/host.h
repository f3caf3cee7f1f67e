/* What the guests of bench/run ask of the machine that runs them: to yield, to put out bytes, and to end. With -DLINUX
   they ask Linux for the same, so that QEMU's user emulation runs them too. */

typedef unsigned int word;
typedef unsigned char byte;

#ifdef LINUX
enum { EXIT = 93, PUT = 64, YIELD = 124 };
#else
enum { EXIT = 0, PUT = 1, YIELD = 5 };
#endif

static word call(word number, word first, word second, word third)
{
    register word a0 __asm__("a0") = first;
    register word a1 __asm__("a1") = second;
    register word a2 __asm__("a2") = third;
    register word a7 __asm__("a7") = number;
    __asm__ volatile("ecall" : "+r"(a0) : "r"(a1), "r"(a2), "r"(a7) : "memory");
    return a0;
}

/* Ends a thunk: each may have 16,777,216 turns at most. */
static void yield(void)
{
    call(YIELD, 0, 0, 0);
}

/* Puts out a number as eight hexadecimal digits, and ends. */
static void finish(word number)
{
    char digits[8];
    for (word i = 0; i < 8; i++)
        digits[i] = "0123456789abcdef"[(number >> (28 - 4 * i)) & 15];
#ifdef LINUX
    call(PUT, 1, (word)digits, 8);
#else
    call(PUT, (word)digits, 8, 0);
#endif
    call(EXIT, 0, 0, 0);
}

/* The next number of a sequence by xorshift (Marsaglia, Xorshift RNGs, 2003, the triple 13, 17, 5). */
static word draw(word x)
{
    x ^= x << 13;
    x ^= x >> 17;
    x ^= x << 5;
    return x;
}
