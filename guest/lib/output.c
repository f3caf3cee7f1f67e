/* stdout and stderr: both go into the run's one output.

   Each thread has two pages of its own that it fills in turn. A full page is output; a part of one is output before the
   thread's next call of pthread.h, semaphore.h or sched.h, at fflush, and at exit. So no lock is needed and no print
   costs a call; yet the prints are in any order that the program imposes by its calls: what was printed before a call
   is in the output before another thread sees the call.

   A put reads the page of its bytes, and what a read page held when the step began counts for the reuse of the step.
   Therefore there are two pages: one is cleared while the other is filled, so that the step that fills a page found it
   empty, and doesn't depend on what was printed before.

   Once there are threads, each call of stdio with at most 4,096 bytes is one put, so no other thread's bytes come
   between. In a longer call they may, if nothing orders them. */
#include <stdio.h>
#include <string.h>
#include <unistd.h>
#include <errno.h>
#include "library.h"

static struct IT_PAGE_ALIGNED { unsigned char bytes[2][IT_PAGE]; } pages[IT_THREADS];

/* guest/build --unbuffered: after a call of stdio the page is output if there is a newline in it. */
#ifdef IT_UNBUFFERED
enum { FLUSH_AT_NEWLINE = 1 };
#else
enum { FLUSH_AT_NEWLINE = 0 };
#endif

/* Clears the first bytes of a page, and at most 31 more. */
static void clear(unsigned char *page, unsigned count)
{
    for (unsigned *word = (unsigned *)page, *end = (unsigned *)(page + count); word < end; word += 8)
        word[0] = word[1] = word[2] = word[3] = word[4] = word[5] = word[6] = word[7] = 0;
}

static void start_page(unsigned char *page)
{
    it_self.page = it_self.next = page;
}

/* Outputs the first bytes of the page, and continues on the other page, to which it moves the rest. */
static void output_page(unsigned count)
{
    unsigned char *page = it_self.page, *other = pages[it_self.number].bytes[page == pages[it_self.number].bytes[0]];
    unsigned rest = (unsigned)(it_self.next - page) - count;
    it_call(IT_CALL_PUT, (unsigned)page, count);
    start_page(other);
    if (rest) {
        memcpy(other, page + count, rest);
        it_self.next += rest;
    }
    clear(page, count + rest);
}

static void output_full_page(void)
{
    unsigned before = it_self.call_start ? (unsigned)(it_self.call_start - it_self.page) : 0;
    output_page(it_shared.threads_created && before ? before : IT_PAGE);
    it_self.call_start = it_self.call_start ? it_self.page : NULL;
}

static void begin_output(void)
{
    if (!it_self.page)
        start_page(pages[it_self.number].bytes[0]);
    it_self.io_pending = 1;
}

static void flush(void)
{
    if (it_self.next != it_self.page)
        output_page((unsigned)(it_self.next - it_self.page));
}

void it_finish_io(void)
{
    flush();
    it_unlock_stdin();
    it_self.io_pending = it_self.conversion_cost = 0;
}

/* Outputs whole pages directly from where they are, if nothing is buffered. Bytes that can't be read trap when they are
   copied. */
static void append(const unsigned char *bytes, size_t count)
{
    for (; count >= IT_PAGE && it_self.next == it_self.page; bytes += IT_PAGE, count -= IT_PAGE)
        if (it_call(IT_CALL_PUT, (unsigned)bytes, IT_PAGE) < 0)
            break;
    while (count) {
        size_t space = IT_PAGE - (size_t)(it_self.next - it_self.page), part = count < space ? count : space;
        memcpy(it_self.next, bytes, part);
        it_self.next += part;
        bytes += part;
        count -= part;
        if (part == space)
            output_full_page();
    }
}

/* ---------------------------------------------------------------------------------------------- the streams ---- */

static int put_byte(char byte, FILE *stream)
{
    (void)stream;
    begin_output();
    *it_self.next++ = (unsigned char)byte;
    if (it_self.next == it_self.page + IT_PAGE)
        output_full_page();
    if (FLUSH_AT_NEWLINE && byte == '\n' && !it_self.call_start)
        flush();
    return (unsigned char)byte;
}

/* Outside of a longer call, a byte for stderr is output at once. */
static int put_stderr_byte(char byte, FILE *stream)
{
    int result = put_byte(byte, stream);
    if (!it_self.call_start)
        flush();
    return result;
}

static int flush_stream(FILE *stream)
{
    (void)stream;
    flush();
    return 0;
}

static int no_buffer(FILE *stream, char *buffer, int mode, size_t size)
{
    (void)stream, (void)buffer, (void)mode, (void)size;
    return 0;
}

static int keep_open(FILE *stream)
{
    return flush_stream(stream);
}

static __off_t no_seek(FILE *stream, __off_t offset, int whence)
{
    (void)stream, (void)offset, (void)whence;
    errno = ESPIPE;
    return -1;
}

/* Only the error flag in them changes, so they need no pages of their own. */
static struct __file_ext output = FDEV_SETUP_EXT(put_byte, NULL, flush_stream, keep_open, no_seek, no_buffer, __SWR);
static struct __file_ext errors = FDEV_SETUP_EXT(put_stderr_byte, NULL, flush_stream, keep_open, no_seek, no_buffer,
                                                 __SWR);
FILE *const stdout = &output.cfile.file;
FILE *const stderr = &errors.cfile.file;

static int is_output(const FILE *stream)
{
    return stream == stdout || stream == stderr;
}

/* The begin and end of a call of stdio. Calls may be nested, as when a printf calls a print. */
static unsigned char *begin_call(void)
{
    unsigned char *outer = it_self.call_start;
    begin_output();
    if (!outer)
        it_self.call_start = it_self.next;
    return outer;
}

static void end_call(const FILE *stream, const unsigned char *outer)
{
    if (outer)
        return;
    it_self.call_start = NULL;
    if (stream == stderr || (FLUSH_AT_NEWLINE && memchr(it_self.page, '\n', (size_t)(it_self.next - it_self.page))))
        flush();
}

#ifdef IT_LONG_DOUBLE
#define __real_vfprintf it_vfprintf /* in long_double.c */
#endif

/* The linker redirects each vfprintf here, including those of printf and its variants. */
int __real_vfprintf(FILE *stream, const char *format, va_list arguments);
int __wrap_vfprintf(FILE *stream, const char *format, va_list arguments)
{
    if (!is_output(stream))
        return __real_vfprintf(stream, format, arguments);
    const unsigned char *outer = begin_call();
    int result = __real_vfprintf(stream, format, arguments);
    end_call(stream, outer);
    return result;
}

static size_t write_all(FILE *stream, const void *bytes, size_t count)
{
    if (is_output(stream)) {
        const unsigned char *outer = begin_call();
        append(bytes, count);
        end_call(stream, outer);
        return count;
    }
    if (!(stream->flags & __SWR))
        return 0;
    for (size_t k = 0; k < count; k++)
        if (stream->put(((const char *)bytes)[k], stream) < 0)
            return k;
    return count;
}

size_t fwrite(const void *restrict bytes, size_t size, size_t count, FILE *restrict stream)
{
    if (size == 0 || count == 0)
        return 0;
    size_t total = size * count, written = write_all(stream, bytes, total);
    return written == total ? count : written / size;
}

int fputs(const char *restrict text, FILE *restrict stream)
{
    size_t length = strlen(text);
    return write_all(stream, text, length) == length ? 0 : EOF;
}

int puts(const char *text)
{
    const unsigned char *outer = begin_call();
    append((const unsigned char *)text, strlen(text));
    append((const unsigned char *)"\n", 1);
    end_call(stdout, outer);
    return 0;
}

int fflush(FILE *stream)
{
    if (!stream || is_output(stream))
        flush();
    else if (stream->flush)
        return stream->flush(stream);
    return 0;
}

/* The output's descriptors are 1 and 2. What stdio has buffered is output first; the bytes are output in place. */
IT_REPLACEABLE ssize_t write(int descriptor, const void *bytes, size_t count)
{
    if (descriptor != STDOUT_FILENO && descriptor != STDERR_FILENO) {
        errno = EBADF;
        return -1;
    }
    flush();
    for (size_t done = 0, part; done < count; done += part) {
        part = count - done < IT_PAGE ? count - done : IT_PAGE;
        if (it_call(IT_CALL_PUT, (unsigned)bytes + done, part) < 0) {
            errno = EFAULT;
            return done ? (ssize_t)done : -1;
        }
    }
    return (ssize_t)count;
}
