/* The C library's errno.h, and glibc's variables with the program's name. */
#include_next <errno.h>
#ifndef IT_ERRNO_H
#define IT_ERRNO_H

#if __GNU_VISIBLE
#ifdef __cplusplus
extern "C" {
#endif
extern char *program_invocation_name, *program_invocation_short_name;
#ifdef __cplusplus
}
#endif
#endif

#endif
