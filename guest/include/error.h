/* Messages on stderr, as in glibc's error.h: the program's name, the text, and the text of the error unless it is 0. A
   code other than 0 then ends the program. */
#ifndef IT_ERROR_H
#define IT_ERROR_H

#ifdef __cplusplus
extern "C" {
#endif

extern unsigned error_message_count; /* the number of messages so far */
extern int error_one_per_line;       /* if nonzero, error_at_line skips the same line twice in a row */

void error(int code, int error, const char *format, ...) __attribute__((__format__(__printf__, 3, 4)));
void error_at_line(int code, int error, const char *file, unsigned line, const char *format, ...)
    __attribute__((__format__(__printf__, 5, 6)));

#ifdef __cplusplus
}
#endif

#endif
