/* POSIX.1-2017 open_memstream: a stream into memory that grows. Each flush and the close store its address and the
   number of bytes; a zero follows the bytes. */
#include <errno.h>
#include <stdio.h>
#include <stdlib.h>
#include "../library.h"

enum { INITIAL_SIZE = 128 };

struct memstream {
    struct __file_close stream;
    char **text;
    size_t *size;
    char *bytes;
    size_t count, capacity; /* the zero isn't counted */
};

static int put_byte(char byte, FILE *stream)
{
    struct memstream *to = (struct memstream *)stream;
    if (to->count + 1 == to->capacity) {
        char *larger = realloc(to->bytes, 2 * to->capacity);
        if (!larger)
            return EOF;
        to->bytes = larger;
        to->capacity *= 2;
    }
    to->bytes[to->count++] = byte;
    return (unsigned char)byte;
}

static int store_result(FILE *stream)
{
    struct memstream *to = (struct memstream *)stream;
    to->bytes[to->count] = 0;
    *to->text = to->bytes;
    *to->size = to->count;
    return 0;
}

static int close_stream(FILE *stream)
{
    store_result(stream);
    free(stream);
    return 0;
}

IT_REPLACEABLE FILE *open_memstream(char **text, size_t *size)
{
    struct memstream *opened = malloc(sizeof *opened);
    char *bytes = malloc(INITIAL_SIZE);
    if (!opened || !bytes) {
        free(opened);
        free(bytes);
        errno = ENOMEM;
        return NULL;
    }
    *opened = (struct memstream) {
        FDEV_SETUP_CLOSE(put_byte, NULL, store_result, close_stream, _FDEV_SETUP_WRITE), text, size, bytes, 0,
        INITIAL_SIZE
    };
    store_result(&opened->stream.file);
    return &opened->stream.file;
}
