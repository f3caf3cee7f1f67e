/* The C library's stdio.h, and what it omits of POSIX.1-2017 <stdio.h>. */
#include_next <stdio.h>
#ifndef IT_STDIO_H
#define IT_STDIO_H

#include <stdarg.h>
#include <sys/types.h>

#ifdef __cplusplus
extern "C" {
#endif

/* POSIX.1-2017 getline and getdelim: read up to and including a newline, or the given byte, into memory that grows.
   Return the number of bytes; -1 at the end. */
ssize_t getline(char **__restrict line, size_t *__restrict size, FILE *__restrict stream);
ssize_t getdelim(char **__restrict line, size_t *__restrict size, int delimiter, FILE *__restrict stream);

/* Descriptors 1 and 2 are stdout and stderr. EBADF for any other. */
int dprintf(int descriptor, const char *__restrict format, ...) __attribute__((__format__(__printf__, 2, 3)));
int vdprintf(int descriptor, const char *__restrict format, va_list arguments)
    __attribute__((__format__(__printf__, 2, 0)));

/* Each stream that is locked takes one of the 63 mutexes. The lock stops only threads that call these functions. */
void flockfile(FILE *stream);
int ftrylockfile(FILE *stream);
void funlockfile(FILE *stream);

/* *text and *size are up to date after each fflush and after fclose. */
FILE *open_memstream(char **text, size_t *size);

int renameat(int directory, const char *old, int other, const char *name);

int getw(FILE *stream);
int putw(int word, FILE *stream);

/* No call locks the stream for each byte, so these are the same as the others. */
#define getc_unlocked(stream) fgetc(stream)
#define getchar_unlocked() fgetc(stdin)
#define putc_unlocked(byte, stream) fputc(byte, stream)
#define putchar_unlocked(byte) fputc(byte, stdout)

#ifdef __cplusplus
}
#endif

#endif
