/* Counts the lines, words and bytes of the input, as wc does, and outputs the three numbers in decimal.
   Each of four threads counts a quarter of the input, and adds its counts to totals under a mutex. Built by

       clang --target=riscv32 -march=rv32i -mabi=ilp32 -O2 -std=c11 -ffreestanding -fno-builtin -nostdlib -static \
           -fuse-ld=lld -o count.elf count.c                                                                       */

typedef unsigned int word;

/* the environment calls used, by their numbers in docs/MACHINE.md */
enum { EXIT = 0, PUT = 1, CREATE = 2, THREAD_EXIT = 3, JOIN = 4, LOCK = 6, UNLOCK = 8 };

enum { THREADS = 4, TOTALS = 0 };

static volatile word lines, words; /* under mutex TOTALS */

static word call(word number, word first, word second)
{
    register word a0 __asm__("a0") = first;
    register word a1 __asm__("a1") = second;
    register word a7 __asm__("a7") = number;
    __asm__ volatile("ecall" : "+r"(a0), "+r"(a1) : "r"(a7) : "memory");
    return a0;
}

/* the input's length is in its header, and its bytes are in the pages after that */
static word length(void)
{
    return *(const volatile word *)0xC0000000u;
}

static word at(word place)
{
    return ((const volatile unsigned char *)0xC0001000u)[place];
}

static int is_space(word byte)
{
    return byte == ' ' || (byte >= '\t' && byte <= '\r');
}

/* a word belongs to the quarter that it begins in */
static void count(word quarter)
{
    word size = (length() + THREADS - 1) / THREADS, line = 0, begun = 0;
    word first = (quarter & 1 ? size : 0) + (quarter & 2 ? size << 1 : 0); /* RV32I has no multiplication */
    for (word place = first; place < first + size && place < length(); place++) {
        line += at(place) == '\n';
        begun += !is_space(at(place)) && (place == 0 || is_space(at(place - 1)));
    }
    call(LOCK, TOTALS, 0);
    lines += line;
    words += begun;
    call(UNLOCK, TOTALS, 0);
    call(THREAD_EXIT, 0, 0);
}

/* appends a number's digits and then the byte `end` */
static char *decimal(char *to, word number, char end)
{
    static const word powers[] = { 1000000, 100000, 10000, 1000, 100, 10, 1 };
    int begun = 0;
    for (int k = 0; k < 7; k++) {
        char digit = '0';
        for (; number >= powers[k]; digit++) {
            number -= powers[k];
            __asm__ volatile("" : "+r"(number)); /* so that clang calls no division */
        }
        begun |= digit != '0' || k == 6;
        if (begun)
            *to++ = digit;
    }
    *to++ = end;
    return to;
}

void _start(void)
{
    char text[32], *end = text;
    for (word k = 0; k < THREADS; k++)
        call(CREATE, (word)count, k);
    for (word k = 1; k <= THREADS; k++)
        call(JOIN, k, 0);
    end = decimal(end, lines, ' ');
    end = decimal(end, words, ' ');
    end = decimal(end, length(), '\n');
    call(PUT, (word)text, end - text);
    call(EXIT, 0, 0);
}
