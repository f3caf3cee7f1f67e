/* Named semaphores, of one process. */
#include <errno.h>
#include <fcntl.h>
#include <pthread.h>
#include <semaphore.h>
#include <stdarg.h>
#include <string.h>
#include "../library.h"

enum { MAX_NAME = 251 };

static struct IT_PAGE_ALIGNED {
    pthread_mutex_t mutex;
    struct named {
        char name[MAX_NAME + 1]; /* empty: there is none */
        sem_t semaphore;
        unsigned open_count;
    } entry[IT_PROGRAM_OBJECTS];
} semaphores = { PTHREAD_MUTEX_INITIALIZER, { { "", { 0 }, 0 } } };

static int unlock_result(int error)
{
    pthread_mutex_unlock(&semaphores.mutex);
    if (error == 0)
        return 0;
    errno = error;
    return -1;
}

/* A name without its leading slashes; or null, with errno set. */
static const char *strip_slashes(const char *name)
{
    name += strspn(name, "/");
    if (!*name || strchr(name, '/'))
        errno = EINVAL;
    else if (strlen(name) > MAX_NAME)
        errno = ENAMETOOLONG;
    else
        return name;
    return NULL;
}

static struct named *find(const char *name)
{
    for (struct named *named = semaphores.entry; named != semaphores.entry + IT_PROGRAM_OBJECTS; named++)
        if (!strcmp(named->name, name))
            return named;
    return NULL;
}

/* One that has no name and isn't open. */
static struct named *find_free(void)
{
    for (struct named *named = semaphores.entry; named != semaphores.entry + IT_PROGRAM_OBJECTS; named++)
        if (!named->name[0] && !named->open_count)
            return named;
    return NULL;
}

static void destroy_if_unused(struct named *named)
{
    if (!named->name[0] && !named->open_count)
        sem_destroy(&named->semaphore);
}

static struct named *create(const char *name, unsigned value)
{
    struct named *named = find_free();
    if (!named)
        errno = ENOSPC;
    if (!named || sem_init(&named->semaphore, 0, value) != 0)
        return NULL;
    strcpy(named->name, name);
    return named;
}

IT_REPLACEABLE sem_t *sem_open(const char *name, int flags, ...)
{
    unsigned value = 0;
    if (flags & O_CREAT) {
        va_list arguments;
        va_start(arguments, flags);
        (void)va_arg(arguments, unsigned);
        value = va_arg(arguments, unsigned);
        va_end(arguments);
    }
    if (!(name = strip_slashes(name)))
        return SEM_FAILED;
    pthread_mutex_lock(&semaphores.mutex);
    struct named *named = find(name);
    int error = 0;
    if (named && (flags & O_CREAT) && (flags & O_EXCL))
        error = EEXIST;
    else if (!named && !(flags & O_CREAT))
        error = ENOENT;
    else if (!named && !(named = create(name, value)))
        error = errno;
    if (!error)
        named->open_count++;
    return unlock_result(error) == 0 ? &named->semaphore : SEM_FAILED;
}

IT_REPLACEABLE int sem_close(sem_t *semaphore)
{
    pthread_mutex_lock(&semaphores.mutex);
    for (struct named *named = semaphores.entry; named != semaphores.entry + IT_PROGRAM_OBJECTS; named++)
        if (&named->semaphore == semaphore && named->open_count) {
            named->open_count--;
            destroy_if_unused(named);
            return unlock_result(0);
        }
    return unlock_result(EINVAL);
}

IT_REPLACEABLE int sem_unlink(const char *name)
{
    if (!(name = strip_slashes(name))) {
        errno = errno == EINVAL ? ENOENT : errno;
        return -1;
    }
    pthread_mutex_lock(&semaphores.mutex);
    struct named *named = find(name);
    if (!named)
        return unlock_result(ENOENT);
    named->name[0] = 0;
    destroy_if_unused(named);
    return unlock_result(0);
}
