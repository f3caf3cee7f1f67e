/* Functions of stdio that the C library omits: locks of streams, prints to a descriptor, and positions in a stream. */
#include <errno.h>
#include <pthread.h>
#include <stdarg.h>
#include <stdio.h>
#include <unistd.h>
#include "../library.h"

/* How often the thread has locked each stream that it holds. */
static _Thread_local unsigned locked[IT_OBJECTS];

static int lock_with(enum it_call call, FILE *stream)
{
    unsigned number = it_number_or_end(IT_MUTEX, stream);
    if (!locked[number] && it_ordered_call(call, number, 0) != 0)
        return -1;
    locked[number]++;
    return 0;
}

IT_REPLACEABLE void flockfile(FILE *stream)
{
    lock_with(IT_CALL_LOCK, stream);
}

IT_RETURNS(int, ftrylockfile, (FILE *stream), lock_with(IT_CALL_TRYLOCK, stream))

IT_REPLACEABLE void funlockfile(FILE *stream)
{
    unsigned number = it_number_or_end(IT_MUTEX, stream);
    if (locked[number] && --locked[number] == 0)
        it_ordered_call(IT_CALL_UNLOCK, number, 0);
}

IT_REPLACEABLE int vdprintf(int descriptor, const char *restrict format, va_list arguments)
{
    if (descriptor == STDOUT_FILENO || descriptor == STDERR_FILENO)
        return vfprintf(descriptor == STDOUT_FILENO ? stdout : stderr, format, arguments);
    errno = EBADF;
    return -1;
}

IT_REPLACEABLE int dprintf(int descriptor, const char *restrict format, ...)
{
    va_list arguments;
    va_start(arguments, format);
    int count = vdprintf(descriptor, format, arguments);
    va_end(arguments);
    return count;
}

int fgetpos(FILE *stream, fpos_t *place)
{
    *place = ftello(stream);
    return *place < 0 ? -1 : 0;
}

int fsetpos(FILE *stream, fpos_t *place)
{
    return fseeko(stream, (off_t)*place, SEEK_SET);
}

IT_REPLACEABLE int getw(FILE *stream)
{
    int word;
    return fread(&word, sizeof word, 1, stream) == 1 ? word : EOF;
}

IT_RETURNS(int, putw, (int word, FILE *stream), fwrite(&word, sizeof word, 1, stream) == 1 ? 0 : EOF)
