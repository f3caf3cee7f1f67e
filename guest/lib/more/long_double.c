/* printf and scanf of long double, which has 128 bits here: 113 of mantissa and 15 of exponent. The C library's own
   take it for a double. guest/build compiles this if a program has long doubles or a format with L.

   All digits are exact, and rounded once, in a tie to the even digit; digits after the first MAX_DIGITS are
   zeros. */
#ifdef IT_LONG_DOUBLE
#include <ctype.h>
#include <stdarg.h>
#include <stdbool.h>
#include <stdint.h>
#include <stdio.h>
#include <stdlib.h>
#include <string.h>

int it_vfprintf(FILE *stream, const char *format, va_list arguments);
int __real_vfprintf(FILE *stream, const char *format, va_list arguments);
int __real_vfscanf(FILE *stream, const char *format, va_list arguments);

typedef unsigned word;

enum {
    FRACTION = 112, BIAS = 16383, SPECIAL = 32767, LIMBS = 4, WORDS = 518, INTEGER_DIGITS = 4934, MAX_DIGITS = 6000,
    BASE_COST = 4, WORDS_PER_COUNT = 4096 /* words processed for a quarter of MAX_COST */
};

struct parts {
    unsigned char digits[INTEGER_DIGITS];
    unsigned next, end, words, done;
    word fraction[WORDS];
};

static void count_words(struct parts *parts, unsigned words);
#define AFTER_WORDS count_words
#include "../digits.h"

static void count_words(struct parts *parts, unsigned words)
{
    parts->done += words;
    if (parts->done < WORDS_PER_COUNT)
        return;
    parts->done -= WORDS_PER_COUNT;
    count_conversion(MAX_COST / 4);
}

/* ------------------------------------------------------------------------------------------- digits ---- */

/* A number's sign, and mantissa * 2^exponent; the lowest word of the mantissa is first. */
struct binary {
    bool negative, special, zero;
    int exponent;
    word mantissa[LIMBS];
};

static struct binary to_binary(long double number)
{
    union { long double number; word words[LIMBS]; } as = { number };
    struct binary value = { .negative = as.words[3] >> 31 };
    int biased = (int)(as.words[3] >> 16 & SPECIAL);
    as.words[3] &= 0xFFFF;
    value.zero = !(as.words[0] | as.words[1] | as.words[2] | as.words[3]) && biased == 0;
    value.special = biased == SPECIAL;
    if (biased)
        as.words[3] |= 0x10000;
    else
        biased = 1;
    value.exponent = biased - BIAS - FRACTION;
    memcpy(value.mantissa, as.words, sizeof value.mantissa);
    return value;
}

/* The word of a mantissa's bits from a place on; bits outside of it are zero. */
static word bits_at(const struct binary *value, int place)
{
    unsigned long long both = 0;
    int limb = place >= 0 ? place / 32 : -((31 - place) / 32);
    if (limb >= 0 && limb < LIMBS)
        both = value->mantissa[limb];
    if (limb + 1 >= 0 && limb + 1 < LIMBS)
        both |= (unsigned long long)value->mantissa[limb + 1] << 32;
    return (word)(both >> (place - 32 * limb));
}

static IT_NOINLINE void split(struct parts *parts, const struct binary *value)
{
    word integer[WORDS];
    unsigned words = value->exponent + FRACTION < 0 ? 0 : (unsigned)(value->exponent + FRACTION) / 32 + 1;
    for (unsigned k = 0; k < words; k++)
        integer[k] = bits_at(value, (int)(32 * (words - 1 - k)) - value->exponent);
    parts->done = 0;
    integer_digits(parts, integer, words);
    parts->words = value->exponent < 0 ? (unsigned)(31 - value->exponent) / 32 : 0;
    for (unsigned k = 0; k < parts->words; k++)
        parts->fraction[k] = bits_at(value, -value->exponent - 32 * (int)(k + 1));
}

/* Digits d.ddd and the power of ten of the first one. Zeros follow them. */
struct decimal {
    int exponent, count;
    char digits[MAX_DIGITS + 1];
};

/* Adds 1 to the last digit. */
static void add_one(struct decimal *to)
{
    int at = to->count;
    while (at > 0 && to->digits[at - 1] == '9')
        to->digits[--at] = '0';
    if (at > 0) {
        to->digits[at - 1]++;
        return;
    }
    to->digits[0] = '1';
    to->exponent++;
}

/* Rounds a number to that many digits, or, with fixed_point, to that many after the point. */
static IT_NOINLINE void round_digits(struct decimal *to, const struct binary *value, bool fixed_point, int wanted)
{
    struct parts parts;
    split(&parts, value);
    to->exponent = (int)(parts.end - parts.next) - 1;
    unsigned digit = next_digit(&parts);
    for (; !digit; to->exponent--)
        digit = next_digit(&parts);
    if (fixed_point)
        wanted = wanted > MAX_DIGITS ? MAX_DIGITS : wanted + to->exponent + 1;
    if (wanted > MAX_DIGITS)
        wanted = MAX_DIGITS;
    to->count = 0;
    while (to->count < wanted) {
        to->digits[to->count++] = (char)('0' + digit);
        digit = next_digit(&parts);
    }
    bool odd = to->count && (to->digits[to->count - 1] & 1), round_up = wanted >= 0 && digit >= 5;
    if (round_up && digit == 5 && !odd)
        round_up = !rest_is_zero(&parts);
    if (to->count == 0) { /* all digits are below the last place */
        to->exponent -= wanted;
        to->exponent += round_up && wanted == 0;
        to->digits[to->count++] = round_up ? '1' : '0';
    } else if (round_up) {
        add_one(to);
    }
}

/* ------------------------------------------------------------------------------------------- text ---- */

enum { LEFT = 1, PLUS = 2, SPACE = 4, ALTERNATE = 8, ZEROS = 16 };

/* A conversion. precision is -1 if there is none. */
struct conversion {
    unsigned flags;
    int width, precision;
    char length[3], kind;
};

/* The stream, and the number of bytes written. */
struct out {
    FILE *stream;
    int count;
};

static void put(struct out *out, char byte)
{
    out->count++;
    out->stream->put(byte, out->stream);
}

static void put_all(struct out *out, const char *bytes, int count)
{
    for (int k = 0; k < count; k++)
        put(out, bytes[k]);
}

static void put_repeated(struct out *out, char byte, int count)
{
    while (count-- > 0)
        put(out, byte);
}

/* The parts of a number: a sign and 0x; the digits before and after the point, each with zeros; and an exponent. */
struct text {
    char prefix[4], suffix[8];
    const char *integer, *fraction;
    int integer_count, integer_zeros, zeros_before, fraction_count, zeros_after;
    bool point;
};

static int prefix_sign(char *prefix, bool negative, unsigned flags)
{
    prefix[0] = negative ? '-' : flags & PLUS ? '+' : flags & SPACE ? ' ' : 0;
    prefix[1] = 0;
    return prefix[0] != 0;
}

static void put_text(struct out *out, const struct conversion *spec, const struct text *text, bool zeros)
{
    int prefix = (int)strlen(text->prefix), suffix = (int)strlen(text->suffix);
    int size = prefix + text->integer_count + text->integer_zeros + text->point + text->zeros_before
               + text->fraction_count + text->zeros_after + suffix;
    int pad = spec->width > size ? spec->width - size : 0;
    bool inside = zeros && (spec->flags & ZEROS) && !(spec->flags & LEFT);
    if (!inside && !(spec->flags & LEFT))
        put_repeated(out, ' ', pad);
    put_all(out, text->prefix, prefix);
    if (inside)
        put_repeated(out, '0', pad);
    put_all(out, text->integer, text->integer_count);
    put_repeated(out, '0', text->integer_zeros);
    if (text->point)
        put(out, '.');
    put_repeated(out, '0', text->zeros_before);
    put_all(out, text->fraction, text->fraction_count);
    put_repeated(out, '0', text->zeros_after);
    put_all(out, text->suffix, suffix);
    if (spec->flags & LEFT)
        put_repeated(out, ' ', pad);
}

/* e+NN, or p+N: at least `min_digits` digits. */
static void write_exponent(char *to, char letter, int exponent, int min_digits)
{
    char digits[6];
    int count = 0;
    *to++ = letter;
    *to++ = exponent < 0 ? '-' : '+';
    for (unsigned rest = (unsigned)(exponent < 0 ? -exponent : exponent), digit; rest || count < min_digits;) {
        rest = it_div10(rest, &digit);
        digits[count++] = (char)('0' + digit);
    }
    while (count)
        *to++ = digits[--count];
    *to = 0;
}

static int min(int one, int other)
{
    return one < other ? one : other;
}

/* As d.ddd with `precision` digits after the point. */
static void with_exponent(struct text *text, const struct decimal *from, int precision, char letter)
{
    text->integer = from->digits;
    text->integer_count = 1;
    text->fraction = from->digits + 1;
    text->fraction_count = min(from->count - 1, precision);
    text->zeros_after = precision - text->fraction_count;
    write_exponent(text->suffix, letter, from->exponent, 2);
}

/* As ddd.ddd with `precision` digits after the point. */
static void with_point(struct text *text, const struct decimal *from, int precision)
{
    int integer = from->exponent + 1, at = integer > 0 ? min(integer, from->count) : 0;
    text->integer = integer > 0 ? from->digits : "0";
    text->integer_count = integer > 0 ? at : 1;
    text->integer_zeros = integer > 0 ? integer - at : 0;
    text->zeros_before = integer < 0 ? min(-integer, precision) : 0;
    text->fraction = from->digits + at;
    text->fraction_count = min(from->count - at, precision - text->zeros_before);
    text->zeros_after = precision - text->zeros_before - text->fraction_count;
}

static void put_decimal(struct out *out, const struct conversion *spec, const struct binary *value)
{
    struct decimal decimal;
    const struct decimal *from = &decimal;
    char kind = (char)(spec->kind | 32);
    int precision = spec->precision < 0 ? 6 : spec->precision;
    struct text text = { .suffix = "" };
    prefix_sign(text.prefix, value->negative, spec->flags);
    if (kind == 'g' && precision == 0)
        precision = 1;
    decimal.exponent = 0;
    decimal.count = 1;
    decimal.digits[0] = '0';
    if (!value->zero)
        round_digits(&decimal, value, kind == 'f', kind == 'e' ? precision + (precision < MAX_DIGITS) : precision);
    if (kind == 'g') {
        int digits = from->count;
        while (digits > 1 && from->digits[digits - 1] == '0')
            digits--;
        bool as_e = from->exponent < -4 || from->exponent >= precision;
        precision -= as_e ? 1 : 1 + from->exponent;
        if (!(spec->flags & ALTERNATE)) {
            int used = as_e ? digits - 1 : digits - 1 - from->exponent;
            precision = min(precision, used < 0 ? 0 : used);
        }
        kind = as_e ? 'e' : 'f';
    }
    text.point = precision > 0 || spec->flags & ALTERNATE;
    if (kind == 'e')
        with_exponent(&text, from, precision, spec->kind & 32 ? 'e' : 'E');
    else
        with_point(&text, from, precision);
    put_text(out, spec, &text, true);
}

/* As 0x1.hhhp+d. */
static void put_hexadecimal(struct out *out, const struct conversion *spec, struct binary *value)
{
    enum { NIBBLES = FRACTION / 4 };
    bool upper = !(spec->kind & 32);
    const char *names = upper ? "0123456789ABCDEF" : "0123456789abcdef";
    int precision = spec->precision, exponent = value->zero ? 0 : value->exponent + FRACTION;
    char integer, digits[NIBBLES];
    struct text text = { .suffix = "" };
    if (precision >= 0 && precision < NIBBLES) {
        int cut = FRACTION - 4 * precision;
        bool round_up = bits_at(value, cut - 1) & 1, sticky = false;
        for (int k = 0; k < cut - 1; k++)
            sticky |= bits_at(value, k) & 1;
        unsigned long long carry = round_up && (sticky || (bits_at(value, cut) & 1));
        for (int k = 0; k < LIMBS; k++) { /* adds at the cut, and clears the bits below */
            word add = carry && cut / 32 == k ? 1u << cut % 32 : 0;
            word below = cut >= 32 * (k + 1) ? ~0u : cut > 32 * k ? (1u << cut % 32) - 1 : 0;
            unsigned long long sum = (unsigned long long)(value->mantissa[k] & ~below) + add;
            value->mantissa[k] = (word)sum;
            for (int above = k + 1; sum >> 32 && above < LIMBS; above++) {
                sum = (unsigned long long)value->mantissa[above] + 1;
                value->mantissa[above] = (word)sum;
            }
        }
    }
    integer = names[bits_at(value, FRACTION) & 15];
    for (int k = 0; k < NIBBLES; k++)
        digits[k] = names[bits_at(value, FRACTION - 4 * (k + 1)) & 15];
    int count = NIBBLES;
    while (count && digits[count - 1] == '0')
        count--;
    if (precision < 0)
        precision = count;
    strcpy(text.prefix + prefix_sign(text.prefix, value->negative, spec->flags), upper ? "0X" : "0x");
    text.integer = &integer;
    text.integer_count = 1;
    text.fraction = digits;
    text.fraction_count = min(count, precision);
    text.zeros_after = precision - text.fraction_count;
    text.point = precision > 0 || spec->flags & ALTERNATE;
    write_exponent(text.suffix, upper ? 'P' : 'p', exponent, 1);
    put_text(out, spec, &text, true);
}

static IT_NOINLINE void put_long(struct out *out, const struct conversion *spec, long double number)
{
    struct binary value = to_binary(number);
    count_conversion(BASE_COST);
    if (value.special) {
        bool infinite = !(value.mantissa[0] | value.mantissa[1] | value.mantissa[2] | (value.mantissa[3] & 0xFFFF));
        struct text text = { .suffix = "" };
        prefix_sign(text.prefix, value.negative && infinite, spec->flags);
        text.integer = spec->kind & 32 ? infinite ? "inf" : "nan" : infinite ? "INF" : "NAN";
        text.integer_count = 3;
        put_text(out, spec, &text, false);
    } else if ((spec->kind | 32) == 'a') {
        put_hexadecimal(out, spec, &value);
    } else {
        put_decimal(out, spec, &value);
    }
}

/* ------------------------------------------------------------------------------------------- printf ---- */

/* Whether a format of printf or scanf has a conversion with L. */
static bool has_long(const char *format)
{
    while ((format = strchr(format, '%'))) {
        format++;
        format += strspn(format, "-+ #0'123456789.*");
        if (*format == 'L')
            return true;
        if (*format)
            format++;
    }
    return false;
}

static const char *read_number(const char *format, int *number)
{
    for (*number = 0; isdigit((unsigned char)*format); format++)
        *number = *number * 10 + (*format - '0');
    return format;
}

static const char *read_length(const char *format, char *length)
{
    int count = 0;
    while (count < 2 && *format && strchr("hlLjztq", *format))
        length[count++] = *format++;
    length[count] = 0;
    return format;
}

/* Writes a conversion whose width and precision, if they were arguments, have been read. */
static void write_conversion(char *to, const struct conversion *spec)
{
    static const char flags[] = "-+ #0";
    bool integer = spec->length[0] == 'L' || spec->length[0] == 'q';
    *to++ = '%';
    for (int k = 0; flags[k]; k++)
        if (spec->flags >> k & 1)
            *to++ = flags[k];
    if (spec->width > 0) {
        itoa(spec->width, to, 10);
        to += strlen(to);
    }
    if (spec->precision >= 0) {
        *to++ = '.';
        itoa(spec->precision, to, 10);
        to += strlen(to);
    }
    strcpy(to, integer ? "ll" : spec->length);
    to += strlen(to);
    *to++ = spec->kind;
    *to = 0;
}

/* Skips an argument, of which only the size matters. */
#define SKIP(arguments, spec)                                                                                          \
    do {                                                                                                               \
        if (strchr("aAeEfFgG", (spec)->kind))                                                                          \
            (void)va_arg(arguments, double);                                                                           \
        else if (!strcmp((spec)->length, "ll") || strchr("Lqj", (spec)->length[0] ? (spec)->length[0] : 'x'))          \
            (void)va_arg(arguments, long long);                                                                        \
        else                                                                                                           \
            (void)va_arg(arguments, int);                                                                              \
    } while (0)

int it_vfprintf(FILE *stream, const char *format, va_list arguments)
{
    struct out out = { stream, 0 };
    if (!has_long(format) || !(stream->flags & __SWR))
        return __real_vfprintf(stream, format, arguments);
    while (*format) {
        struct conversion spec = { .precision = -1 };
        static const char flags[] = "-+ #0";
        char piece[48];
        if (*format != '%' || format[1] == '%') {
            put(&out, *format);
            format += 1 + (*format == '%');
            continue;
        }
        const char *flag;
        for (format++; *format && (*format == '\'' || (flag = strchr(flags, *format))); format++)
            if (*format != '\'')
                spec.flags |= 1u << (flag - flags);
        if (*format == '*') {
            spec.width = va_arg(arguments, int);
            format++;
        } else {
            format = read_number(format, &spec.width);
        }
        if (spec.width < 0) {
            spec.flags |= LEFT;
            spec.width = -spec.width;
        }
        if (*format == '.' && *++format == '*') {
            spec.precision = va_arg(arguments, int);
            format++;
        } else if (format[-1] == '.') {
            format = read_number(format, &spec.precision);
        }
        format = read_length(format, spec.length);
        if (!(spec.kind = *format))
            break;
        format++;
        if (spec.length[0] == 'L' && strchr("aAeEfFgG", spec.kind)) {
            put_long(&out, &spec, va_arg(arguments, long double));
        } else if (spec.kind == 'n') {
            *va_arg(arguments, int *) = out.count;
        } else {
            va_list copy;
            write_conversion(piece, &spec);
            va_copy(copy, arguments);
            int result = __real_vfprintf(stream, piece, copy);
            va_end(copy);
            if (result < 0)
                return result;
            out.count += result;
            if (spec.kind != 'm')
                SKIP(arguments, &spec);
        }
    }
    return out.count;
}

/* ------------------------------------------------------------------------------------------- scanf ---- */

static int scan(FILE *stream, const char *format, ...)
{
    va_list arguments;
    va_start(arguments, format);
    int result = __real_vfscanf(stream, format, arguments);
    va_end(arguments);
    return result;
}

/* The text read of a number so far, and how many bytes may follow. */
struct reading {
    FILE *stream;
    int remaining, consumed, count;
    char text[1024];
};

/* Takes the next byte if it is one of these, and returns it, else 0. */
static char match_byte(struct reading *reading, const char *bytes)
{
    if (reading->remaining == 0)
        return 0;
    int byte = fgetc(reading->stream);
    if (byte > 0 && strchr(bytes, byte)) {
        reading->remaining--;
        reading->consumed++;
        if (reading->count < (int)sizeof reading->text - 1)
            reading->text[reading->count++] = (char)byte;
        return (char)byte;
    }
    if (byte != EOF)
        ungetc(byte, reading->stream);
    return 0;
}

static void match_word(struct reading *reading, const char *lower, const char *upper)
{
    for (char both[3] = ""; *lower; lower++, upper++) {
        both[0] = *lower;
        both[1] = *upper;
        if (!match_byte(reading, both))
            return;
    }
}

/* Reads the longest text that can be the start of a number. */
static void read_text(struct reading *reading)
{
    const char *digits = "0123456789", *mark = "eE";
    bool any_digit = false;
    match_byte(reading, "+-");
    if (match_byte(reading, "iI")) {
        match_word(reading, "nf", "NF");
        if (match_byte(reading, "iI"))
            match_word(reading, "nity", "NITY");
        return;
    }
    if (match_byte(reading, "nN")) {
        match_word(reading, "an", "AN");
        return;
    }
    if (match_byte(reading, "0") && (any_digit = true) && match_byte(reading, "xX")) {
        any_digit = false;
        digits = "0123456789abcdefABCDEF";
        mark = "pP";
    }
    while (match_byte(reading, digits))
        any_digit = true;
    if (match_byte(reading, "."))
        while (match_byte(reading, digits))
            any_digit = true;
    if (any_digit && match_byte(reading, mark)) {
        match_byte(reading, "+-");
        while (match_byte(reading, "0123456789"))
            ;
    }
}

/* Reads a long double. Returns 1; 0 if it was something else; EOF at the end of the input. *taken grows. */
static int scan_long(FILE *stream, int width, long double *number, int *consumed)
{
    struct reading reading = { .stream = stream, .remaining = width ? width : 1 << 30 };
    int byte;
    char *end;
    while ((byte = fgetc(stream)) != EOF && isspace(byte))
        ++*consumed;
    if (byte == EOF)
        return EOF;
    ungetc(byte, stream);
    read_text(&reading);
    reading.text[reading.count] = 0;
    *consumed += reading.consumed;
    count_conversion(BASE_COST);
    *number = strtold(reading.text, &end);
    return reading.count && end == reading.text + reading.count;
}

/* The linker redirects each vfscanf here. Each part of the format is read separately, with a %n that shows whether all
   of it was. */
int __wrap_vfscanf(FILE *stream, const char *format, va_list arguments)
{
    int count = 0, consumed = 0;
    if (!has_long(format))
        return __real_vfscanf(stream, format, arguments);
    while (*format) {
        char part[80];
        int size = 0, read = -1, result = 0;
        if (*format != '%' || format[1] == '%') { /* up to the next conversion */
            while (*format && (*format != '%' || format[1] == '%') && size < 70) {
                if (*format == '%')
                    part[size++] = *format++;
                part[size++] = *format++;
            }
            strcpy(part + size, "%n");
            result = scan(stream, part, &read);
            if (read < 0)
                return result == EOF && count == 0 ? EOF : count;
            consumed += read;
            continue;
        }
        struct conversion spec = { .kind = 0 };
        const char *begin = format++;
        bool assigned = *format != '*';
        format = read_length(read_number(format + !assigned, &spec.width), spec.length);
        spec.kind = *format;
        if (!spec.kind)
            break;
        format++;
        if (spec.kind == 'n') {
            if (assigned)
                *va_arg(arguments, int *) = consumed;
            continue;
        }
        if (spec.length[0] == 'L' && strchr("aAeEfFgG", spec.kind)) {
            long double number;
            result = scan_long(stream, spec.width, &number, &consumed);
            if (result != 1)
                return result == EOF && count == 0 ? EOF : count;
            if (assigned) {
                *va_arg(arguments, long double *) = number;
                count++;
            }
            continue;
        }
        if (spec.kind == '[') { /* up to its end; a ] at the start is one of the bytes */
            format += *format == '^';
            format += *format == ']';
            while (*format && *format != ']')
                format++;
            format += *format == ']';
        }
        if (spec.length[0] == 'L') { /* of a whole number */
            size = (int)(strchr(begin, 'L') - begin);
            memcpy(part, begin, (size_t)size);
            part[size++] = 'l';
            part[size++] = 'l';
            part[size++] = spec.kind;
        } else {
            size = (int)(format - begin) < 70 ? (int)(format - begin) : 70;
            memcpy(part, begin, (size_t)size);
        }
        strcpy(part + size, "%n");
        result = assigned ? scan(stream, part, va_arg(arguments, void *), &read) : scan(stream, part, &read);
        if (read < 0)
            return result == EOF && count == 0 ? EOF : count;
        consumed += read;
        count += assigned;
    }
    return count;
}
#endif
