/* The C library's sys/stat.h, and what it omits of POSIX.1-2017 <sys/stat.h>. */
#include_next <sys/stat.h>
#ifndef IT_SYS_STAT_H
#define IT_SYS_STAT_H

#ifdef __cplusplus
extern "C" {
#endif

int lstat(const char *__restrict path, struct stat *__restrict status);

#ifdef __cplusplus
}
#endif

#endif
