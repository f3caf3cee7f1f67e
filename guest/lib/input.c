/* stdin: the run's input, which is in memory.

   At the end of each page of the input a call ends the step, so that reading one page is a step of its own; and the
   input's length is read in a short step, so that the steps that read bytes don't depend on it. Reading therefore costs
   two calls a page.

   Once there are threads, a thread locks a mutex before it reads, and unlocks it before its next call of pthread.h,
   semaphore.h or sched.h. So each byte is read once, by whichever thread, and a loop of getchar costs only two calls
   more. */
#include <errno.h>
#include <stdio.h>
#include <stdlib.h>
#include <string.h>
#include <unistd.h>
#include "library.h"

static int get_byte(FILE *stream);
static __off_t seek(FILE *stream, __off_t offset, int whence);

static int keep_open(FILE *stream)
{
    (void)stream;
    return 0;
}

static int no_buffer(FILE *stream, char *buffer, int mode, size_t size)
{
    (void)stream, (void)buffer, (void)mode, (void)size;
    return 0;
}

/* The stream, the place of the next byte, and the end of the bytes that may be taken without a call. They change for
   all threads that read them, so they have a page. */
static struct IT_PAGE_ALIGNED {
    struct __file_ext stream;
    unsigned next, end;
} input = { FDEV_SETUP_EXT(NULL, get_byte, NULL, keep_open, seek, no_buffer, __SRD), 0, 0 };
FILE *const stdin = &input.stream.cfile.file;

static void lock_stdin(void)
{
    if (!it_shared.threads_created || it_self.holds_stdin)
        return;
    it_call(IT_CALL_LOCK, it_number_or_end(IT_MUTEX, &input), 0);
    it_self.holds_stdin = it_self.io_pending = 1;
}

void it_unlock_stdin(void)
{
    if (!it_self.holds_stdin)
        return;
    it_self.holds_stdin = 0;
    it_call(IT_CALL_UNLOCK, it_number_or_end(IT_MUTEX, &input), 0);
}

/* Whether there is another byte. */
static int fill_input(void)
{
    if (input.next < input.end)
        return 1;
    it_call(IT_CALL_YIELD, 0, 0);
    unsigned length = it_input_length(), end = (input.next & ~(IT_PAGE - 1u)) + IT_PAGE;
    input.end = length < end ? length : end;
    it_call(IT_CALL_YIELD, 0, 0);
    return input.next < input.end;
}

static int get_byte(FILE *stream)
{
    (void)stream;
    lock_stdin();
    return fill_input() ? it_input()[input.next++] : _FDEV_EOF;
}

/* ---------------------------------------------------------------------------------------------- bytes ---- */

/* `unget` has the byte of ungetc, with a bit set above it. */
enum { HAS_UNGET = 0x100 };

static IT_NOINLINE int get_slow(FILE *stream)
{
    if (!(stream->flags & __SRD))
        return EOF;
    if (stream == stdin)
        lock_stdin();
    if (stream->unget) {
        int byte = (unsigned char)stream->unget;
        stream->unget = 0;
        return byte;
    }
    int byte = stream->get(stream);
    if (byte >= 0)
        return (unsigned char)byte;
    stream->flags |= byte == _FDEV_ERR ? __SERR : __SEOF;
    return EOF;
}

/* The first case is by far the most frequent: stdin has a byte ready, none from ungetc, and the thread may read. */
int fgetc(FILE *stream)
{
    if (stream == stdin && input.next < input.end && !stream->unget && it_shared.threads_created == it_self.holds_stdin)
        return it_input()[input.next++];
    return get_slow(stream);
}

int (getc)(FILE *stream)
{
    return fgetc(stream);
}

int (getchar)(void)
{
    return fgetc(stdin);
}

int ungetc(int byte, FILE *stream)
{
    if (stream == stdin)
        lock_stdin();
    if (byte == EOF || !(stream->flags & __SRD) || stream->unget)
        return EOF;
    stream->unget = (__ungetc_t)((unsigned char)byte | HAS_UNGET);
    stream->flags &= (unsigned char)~__SEOF;
    return (unsigned char)byte;
}

/* Takes at most `max` bytes of stdin that are ready without a call, up to and including the byte `stop`, unless that
   is EOF. Returns how many; *bytes is where they are. */
static size_t take_buffered(size_t max, int stop, const unsigned char **bytes)
{
    size_t available = input.end - input.next, count = available < max ? available : max;
    *bytes = it_input() + input.next;
    if (stop != EOF) {
        const unsigned char *found = memchr(*bytes, stop, count);
        if (found)
            count = (size_t)(found - *bytes) + 1;
    }
    input.next += count;
    return count;
}

/* Reads at most `max` bytes, up to and including the byte `stop`. Returns how many. */
static size_t read_until(FILE *stream, unsigned char *to, size_t max, int stop)
{
    size_t done = 0;
    while (done < max) {
        if (stream != stdin || stream->unget || !(lock_stdin(), fill_input())) {
            int byte = fgetc(stream);
            if (byte == EOF)
                break;
            to[done++] = (unsigned char)byte;
        } else {
            const unsigned char *bytes;
            size_t count = take_buffered(max - done, stop, &bytes);
            memcpy(to + done, bytes, count);
            done += count;
        }
        if (to[done - 1] == stop)
            break;
    }
    return done;
}

size_t fread(void *restrict to, size_t size, size_t count, FILE *restrict stream)
{
    if (size == 0 || count == 0)
        return 0;
    size_t total = size * count, done = read_until(stream, to, total, EOF);
    return done == total ? count : done / size;
}

char *fgets(char *restrict to, int size, FILE *restrict stream)
{
    if (size <= 0)
        return NULL;
    size_t done = read_until(stream, (unsigned char *)to, (size_t)size - 1, '\n');
    if (done == 0 && size > 1)
        return NULL;
    to[done] = 0;
    return to;
}

/* POSIX.1-2017 getdelim: `done` bytes have been read, and a zero follows them; the line grows by doubling. */
IT_REPLACEABLE ssize_t getdelim(char **restrict line, size_t *restrict size, int stop, FILE *restrict stream)
{
    size_t done = 0;
    if (!*line)
        *size = 0;
    for (;;) {
        if (*size < done + 2) {
            size_t wanted = *size < 60 ? 120 : 2 * *size;
            char *larger = realloc(*line, wanted);
            if (!larger)
                return -1;
            *line = larger;
            *size = wanted;
        }
        size_t room = *size - done - 1;
        size_t count = read_until(stream, (unsigned char *)*line + done, room, (unsigned char)stop);
        done += count;
        (*line)[done] = 0;
        if (count < room || (*line)[done - 1] == (char)stop)
            return done ? (ssize_t)done : -1;
    }
}

IT_REPLACEABLE ssize_t getline(char **restrict line, size_t *restrict size, FILE *restrict stream)
{
    return getdelim(line, size, '\n', stream);
}

/* ---------------------------------------------------------------------------------------------- places ---- */

static __off_t seek(FILE *stream, __off_t offset, int whence)
{
    (void)stream;
    lock_stdin();
    __off_t place = offset;
    if (whence == SEEK_CUR)
        place += (__off_t)input.next;
    else if (whence == SEEK_END)
        place += (__off_t)it_input_length();
    if (place < 0) {
        errno = EINVAL;
        return -1;
    }
    if (place != (__off_t)input.next) {
        input.next = (unsigned)place;
        input.end = 0;
    }
    return place;
}

/* The input's descriptor is 0, and has the same position as stdin. */
IT_REPLACEABLE ssize_t read(int descriptor, void *bytes, size_t count)
{
    if (descriptor != STDIN_FILENO) {
        errno = EBADF;
        return -1;
    }
    return (ssize_t)read_until(stdin, bytes, count, EOF);
}
