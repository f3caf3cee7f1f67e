/* The C library's search.h, and what it omits of POSIX.1-2017 <search.h>. */
#include_next <search.h>
#ifndef IT_SEARCH_H
#define IT_SEARCH_H

#ifdef __cplusplus
extern "C" {
#endif

void *lfind(const void *key, const void *base, size_t *count, size_t size, int (*compare)(const void *, const void *));
void *lsearch(const void *key, void *base, size_t *count, size_t size, int (*compare)(const void *, const void *));

#ifdef __cplusplus
}
#endif

#endif
