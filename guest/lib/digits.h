/* A number digit by digit, for doubles.c and more/long_double.c. Each defines, before it includes this, AFTER_WORDS,
   which is executed after a pass over that many words of `parts`, and a `struct parts` of its own size: `digits`, the
   digits before the point, of which those from `next` to `end` aren't used yet; and `fraction`, what is after the
   point, in binary, `words` words with the highest first. */
#ifndef IT_DIGITS_H
#define IT_DIGITS_H

#include <stdbool.h>
#include "library.h"

enum { MAX_COST = 256 };

/* A step may execute only so many instructions: therefore a call of the library's own ends the step when the costs of
   the numbers that were turned into text or back add up to MAX_COST. `cost` is that of one number. */
static void count_conversion(unsigned cost)
{
    it_self.conversion_cost += cost;
    it_self.io_pending = 1;
    if (it_self.conversion_cost < MAX_COST)
        return;
    it_self.conversion_cost = 0;
    it_call(IT_CALL_YIELD, 0, 0);
}

/* The decimal digits before the point, of a number in the words `integer`, the highest first. `integer` is 0
   afterwards. */
static void integer_digits(struct parts *parts, unsigned *integer, unsigned words)
{
    unsigned first = 0;
    parts->next = parts->end = INTEGER_DIGITS;
    for (;;) {
        while (first < words && !integer[first])
            first++;
        if (first == words)
            return;
        unsigned rest = 0;
        for (unsigned k = first; k < words; k++) {
            unsigned high = it_div10(rest << 16 | integer[k] >> 16, &rest);
            integer[k] = high << 16 | it_div10(rest << 16 | (integer[k] & 0xFFFF), &rest);
        }
        AFTER_WORDS(parts, words - first);
        parts->digits[--parts->next] = (unsigned char)rest;
    }
}

/* The next digit. After the point it is what comes before the point in ten times the rest. */
static unsigned next_digit(struct parts *parts)
{
    unsigned carry = 0;
    if (parts->next < parts->end)
        return parts->digits[parts->next++];
    while (parts->words && !parts->fraction[parts->words - 1])
        parts->words--;
    for (unsigned k = parts->words; k--;) {
        unsigned low = (parts->fraction[k] & 0xFFFF) * 10 + carry, high = (parts->fraction[k] >> 16) * 10 + (low >> 16);
        parts->fraction[k] = high << 16 | (low & 0xFFFF);
        carry = high >> 16;
    }
    AFTER_WORDS(parts, parts->words);
    return carry;
}

/* Whether the remaining digits are all zero. */
static bool rest_is_zero(const struct parts *parts)
{
    for (unsigned k = parts->next; k < parts->end; k++)
        if (parts->digits[k])
            return false;
    for (unsigned k = 0; k < parts->words; k++)
        if (parts->fraction[k])
            return false;
    return true;
}

#endif
