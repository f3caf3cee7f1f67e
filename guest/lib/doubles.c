/* Turns doubles into text, in place of the C library: all digits are exact, and rounded once, in a tie to the even
   digit. And counts the texts that the C library turns into doubles.

   A step may execute only so many instructions: therefore a call of the library's own ends the step after some of
   either. Their count is 0 again when a call of the program begins, so that a step doesn't depend on what was done
   before. */
#include <stdint.h>

enum { BASE_COST = 2, WORDS = 34, INTEGER_DIGITS = 310, MANTISSA = 52, BIAS = 1075, SPECIAL = 2047 };

/* A double without its sign. */
struct parts {
    unsigned char digits[INTEGER_DIGITS];
    unsigned next, end, fraction[WORDS], words;
};

#define AFTER_WORDS(parts, count) (void)0
#include "digits.h"

typedef unsigned word;

/* The linker redirects the C library's calls here; the arguments are passed on as words. */
unsigned long long __real___atod_engine(word a, word b, word c, word d, word e, word f, word g, word h);
unsigned long long __wrap___atod_engine(word a, word b, word c, word d, word e, word f, word g, word h)
{
    count_conversion(BASE_COST);
    return __real___atod_engine(a, b, c, d, e, f, g, h);
}

/* ------------------------------------------------------------------------------------------- a double in parts ---- */

/* Stores a number of 64 bits into words, shifted left by `shift` bits from the end of the last. */
static void store_shifted(word *words, unsigned count, unsigned long long number, unsigned shift)
{
    for (unsigned k = 0; k < count; k++)
        words[k] = 0;
    unsigned last = count - 1 - shift / 32, bits = shift % 32;
    words[last] = (word)(number << bits);
    if (last >= 1)
        words[last - 1] = (word)(number >> (32 - bits));
    if (last >= 2 && bits)
        words[last - 2] = (word)(number >> 32 >> (32 - bits));
}

/* The parts of mantissa * 2^exponent. */
static void split(struct parts *parts, unsigned long long mantissa, int exponent)
{
    word integer_words[WORDS];
    unsigned words = 2, fraction_bits = exponent < 0 ? (unsigned)-exponent : 0;
    parts->words = (fraction_bits + 31) / 32;
    if (exponent >= 0) {
        words = ((unsigned)exponent + MANTISSA + 32) / 32 + 1;
        store_shifted(integer_words, words, mantissa, (unsigned)exponent);
    } else {
        unsigned long long integer = fraction_bits > MANTISSA ? 0 : mantissa >> fraction_bits;
        store_shifted(integer_words, words, integer, 0);
        store_shifted(parts->fraction, parts->words,
                      mantissa - (fraction_bits > MANTISSA ? 0 : integer << fraction_bits),
                      32 * parts->words - fraction_bits);
    }
    integer_digits(parts, integer_words, words);
}

/* Whether to round up the digit before `digit`: if `digit` and what follows are more than half of its unit, or half of
   it and it is odd. */
static bool rounds_up(const struct parts *parts, unsigned digit, bool odd)
{
    return digit > 5 || (digit == 5 && (odd || !rest_is_zero(parts)));
}

/* ---------------------------------------------------------------------------------------- the C library's call ---- */

enum { MINUS = 1, ZERO = 2, INFINITE = 4, NOT_A_NUMBER = 8 };

/* The form in which vfprintf of picolibc expects a double: the power of ten of the first digit, and the digits. */
struct dtoa {
    int32_t exp;
    uint8_t flags;
    char digits[];
};

/* Adds 1 to the last of some digits. Returns 1 if they were all nines: then they become a 1 and zeros. */
static int add_one(char *digits, int count)
{
    while (count-- > 0) {
        if (digits[count]++ != '9')
            return 0;
        digits[count] = '0';
    }
    digits[0] = '1';
    return 1;
}

/* Writes the digits, at most `max`, with fixed_point only up to `decimals` after the point. Returns their number. */
static int round_digits(struct dtoa *to, struct parts *parts, int max, bool fixed_point, int decimals)
{
    int exponent = (int)(parts->end - parts->next) - 1, count = 0;
    unsigned first = next_digit(parts);
    for (; !first; exponent--)
        first = next_digit(parts);
    int wanted = fixed_point && exponent + 1 + decimals < max ? exponent + 1 + decimals : max;
    if (wanted <= 0) { /* all digits are below the last place, which becomes 1 if they are over half of it */
        to->exp = -decimals;
        to->digits[0] = wanted == 0 && rounds_up(parts, first, false) ? '1' : '0';
        return 1;
    }
    to->exp = exponent;
    to->digits[count++] = (char)('0' + first);
    while (count < wanted)
        to->digits[count++] = (char)('0' + next_digit(parts));
    unsigned next = next_digit(parts);
    if (rounds_up(parts, next, to->digits[count - 1] & 1))
        to->exp += add_one(to->digits, count);
    while (count > 1 && to->digits[count - 1] == '0')
        count--;
    return count;
}

/* All between 1e-22 and 1e20 have the same cost: else an edit that makes a number longer would shift steps. */
static unsigned cost_of(const struct parts *parts)
{
    unsigned digits = parts->end - parts->next;
    if (parts->words <= 4 && digits <= 20)
        return BASE_COST;
    return BASE_COST + parts->words * parts->words / 4 + digits * digits / 256;
}

int __dtoa_engine(double number, struct dtoa *to, int max, bool fixed_point, int decimals)
{
    union { double number; unsigned long long bits; } u = { number };
    unsigned biased = (unsigned)(u.bits >> MANTISSA) & SPECIAL;
    unsigned long long mantissa = u.bits & ((1ull << MANTISSA) - 1);
    struct parts parts;
    to->flags = u.bits >> 63 ? MINUS : 0;
    if (biased == SPECIAL) {
        to->flags |= mantissa ? NOT_A_NUMBER : INFINITE;
        return 0;
    }
    if (!biased && !mantissa) {
        to->flags |= ZERO;
        to->exp = 0;
        to->digits[0] = '0';
        return 1;
    }
    if (biased)
        mantissa |= 1ull << MANTISSA;
    else
        biased = 1;
    split(&parts, mantissa, (int)biased - BIAS);
    count_conversion(cost_of(&parts));
    return round_digits(to, &parts, max, fixed_point, decimals);
}
