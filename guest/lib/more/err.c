/* err.h and error.h: messages on stderr that begin with the program's name. */
#include <err.h>
#include <errno.h>
#include <error.h>
#include <stdio.h>
#include <stdlib.h>
#include <string.h>
#include "../library.h"

/* main's words, after the environment */
extern char *it_words[];

static void print_message(const char *format, va_list arguments)
{
    fprintf(stderr, "%s: ", it_words[1]);
    if (format)
        vfprintf(stderr, format, arguments);
}

IT_REPLACEABLE void vwarn(const char *format, va_list arguments)
{
    int error = errno;
    print_message(format, arguments);
    fprintf(stderr, "%s%s\n", format ? ": " : "", strerror(error));
    errno = error;
}

IT_REPLACEABLE void vwarnx(const char *format, va_list arguments)
{
    print_message(format, arguments);
    fputs("\n", stderr);
}

IT_REPLACEABLE void verr(int code, const char *format, va_list arguments)
{
    vwarn(format, arguments);
    exit(code);
}

IT_REPLACEABLE void verrx(int code, const char *format, va_list arguments)
{
    vwarnx(format, arguments);
    exit(code);
}

/* A function with a format and arguments, based on the one with a va_list. */
#define BY_LIST(function, list, parameters, ...)                                                                       \
    IT_REPLACEABLE void function parameters                                                                            \
    {                                                                                                                  \
        va_list arguments;                                                                                             \
        va_start(arguments, format);                                                                                   \
        list(__VA_ARGS__, arguments);                                                                                  \
        va_end(arguments);                                                                                             \
    }

BY_LIST(warn, vwarn, (const char *format, ...), format)
BY_LIST(warnx, vwarnx, (const char *format, ...), format)
BY_LIST(err, verr, (int code, const char *format, ...), code, format)
BY_LIST(errx, verrx, (int code, const char *format, ...), code, format)

/* ---------------------------------------------------------------------------------------------- error.h ---- */

unsigned error_message_count;
int error_one_per_line;

static void print_error(int code, int error, const char *format, va_list arguments)
{
    vfprintf(stderr, format, arguments);
    error_message_count++;
    if (error)
        fprintf(stderr, ": %s", strerror(error));
    fputs("\n", stderr);
    if (code)
        exit(code);
}

IT_REPLACEABLE void error(int code, int number, const char *format, ...)
{
    va_list arguments;
    va_start(arguments, format);
    fprintf(stderr, "%s: ", it_words[1]);
    print_error(code, number, format, arguments);
    va_end(arguments);
}

IT_REPLACEABLE void error_at_line(int code, int number, const char *file, unsigned line, const char *format, ...)
{
    static const char *last_file;
    static unsigned last_line;
    if (error_one_per_line) {
        int same = file && last_file ? strcmp(file, last_file) == 0 : file == last_file;
        if (same && line == last_line)
            return;
        last_file = file;
        last_line = line;
    }
    va_list arguments;
    va_start(arguments, format);
    fprintf(stderr, "%s:", it_words[1]);
    if (file)
        fprintf(stderr, "%s:%u:", file, line);
    fputs(" ", stderr);
    print_error(code, number, format, arguments);
    va_end(arguments);
}
