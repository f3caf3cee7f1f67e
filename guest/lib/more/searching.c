/* POSIX.1-2017 lfind and lsearch. */
#include <search.h>
#include <string.h>
#include "../library.h"

IT_REPLACEABLE void *lfind(const void *key, const void *base, size_t *count, size_t size,
                           int (*compare)(const void *, const void *))
{
    const char *at = base;
    for (size_t k = 0; k < *count; k++, at += size)
        if (compare(key, at) == 0)
            return (void *)at;
    return NULL;
}

IT_REPLACEABLE void *lsearch(const void *key, void *base, size_t *count, size_t size,
                             int (*compare)(const void *, const void *))
{
    void *found = lfind(key, base, count, size, compare);
    return found ? found : memcpy((char *)base + (*count)++ * size, key, size);
}
