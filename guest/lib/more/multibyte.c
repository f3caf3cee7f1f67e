/* ISO C mbstowcs for one byte a character; the C library's doesn't accept a null pointer. */
#include <stdlib.h>

size_t mbstowcs(wchar_t *restrict to, const char *restrict from, size_t max)
{
    size_t count = 0;
    for (; !to || count < max; count++) {
        unsigned char byte = (unsigned char)from[count];
        if (to)
            to[count] = byte;
        if (!byte)
            break;
    }
    return count;
}
