/* Messages on stderr, as in BSD: the program's name, the text, and, except in the forms with x, the text of errno. err
   and errx then exit with the code. */
#ifndef IT_ERR_H
#define IT_ERR_H

#include <stdarg.h>

#ifdef __cplusplus
extern "C" {
#endif

#define IT_FORMAT(format, arguments) __attribute__((__format__(__printf__, format, arguments)))
void warn(const char *format, ...) IT_FORMAT(1, 2);
void warnx(const char *format, ...) IT_FORMAT(1, 2);
void vwarn(const char *format, va_list arguments) IT_FORMAT(1, 0);
void vwarnx(const char *format, va_list arguments) IT_FORMAT(1, 0);
void err(int code, const char *format, ...) IT_FORMAT(2, 3) __attribute__((__noreturn__));
void errx(int code, const char *format, ...) IT_FORMAT(2, 3) __attribute__((__noreturn__));
void verr(int code, const char *format, va_list arguments) IT_FORMAT(2, 0) __attribute__((__noreturn__));
void verrx(int code, const char *format, va_list arguments) IT_FORMAT(2, 0) __attribute__((__noreturn__));

#ifdef __cplusplus
}
#endif

#endif
