/* The table of ctype.h for a signed char, as guest/build has it; the C library was built for the other kind. It begins
   at -128; a byte above 127 has no class, whether it is taken as a char or not. */
enum { UPPER = 1, LOWER = 2, DIGIT = 4, BLANK = 8, PUNCTUATION = 16, CONTROL = 32, HEXADECIMAL = 64, PRINTABLE = 128 };
enum { ZERO = 128 }; /* its place */

const char _ctype_b[ZERO + 256] = {
    [ZERO + 0 ... ZERO + 8] = CONTROL,
    [ZERO + 9 ... ZERO + 13] = CONTROL | BLANK,
    [ZERO + 14 ... ZERO + 31] = CONTROL,
    [ZERO + ' '] = (char)(BLANK | PRINTABLE),
    [ZERO + '!' ... ZERO + '/'] = PUNCTUATION,
    [ZERO + '0' ... ZERO + '9'] = DIGIT,
    [ZERO + ':' ... ZERO + '@'] = PUNCTUATION,
    [ZERO + 'A' ... ZERO + 'F'] = UPPER | HEXADECIMAL,
    [ZERO + 'G' ... ZERO + 'Z'] = UPPER,
    [ZERO + '[' ... ZERO + '`'] = PUNCTUATION,
    [ZERO + 'a' ... ZERO + 'f'] = LOWER | HEXADECIMAL,
    [ZERO + 'g' ... ZERO + 'z'] = LOWER,
    [ZERO + '{' ... ZERO + '~'] = PUNCTUATION,
    [ZERO + 127] = CONTROL,
};
