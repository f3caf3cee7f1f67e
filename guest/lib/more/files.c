/* Files, on a system that has none: there are an empty directory, /, that can't be written to, and the descriptors 0, 1
   and 2, which behave as pipes. Each function is that of the same name in POSIX.1-2017, System Interfaces, and its
   result is what POSIX requires on such a system. */
#include <errno.h>
#include <fcntl.h>
#include <stdio.h>
#include <stdlib.h>
#include <string.h>
#include <sys/stat.h>
#include <sys/time.h>
#include <sys/uio.h>
#include <unistd.h>
#include "../library.h"

struct termios;
struct utimbuf;

enum { ROOT_MODE = S_IFDIR | 0555, PIPE_MODE = S_IFIFO | 0600 };

static int fail_with(int error)
{
    errno = error;
    return -1;
}

static int is_open(int descriptor)
{
    return descriptor >= STDIN_FILENO && descriptor <= STDERR_FILENO;
}

/* Fails with this error if the descriptor is open, else with EBADF. */
static int descriptor_error(int descriptor, int error)
{
    return fail_with(is_open(descriptor) ? error : EBADF);
}

/* Whether the path names the directory: only slashes, with one or two dots between them. */
static int is_root(const char *path)
{
    if (!*path)
        return 0;
    for (const char *rest = path; *rest;) {
        size_t length = strcspn(rest, "/");
        if (length > 2 || strspn(rest, ".") < length)
            return 0;
        rest += length + (rest[length] == '/');
    }
    return 1;
}

/* For a path that must exist: fails with this error if it is the directory, else with ENOENT. */
static int path_error(const char *path, int error)
{
    return fail_with(is_root(path) ? error : ENOENT);
}

/* For a path that is to be created. */
static int create_error(const char *path)
{
    return fail_with(!*path ? ENOENT : is_root(path) ? EEXIST : EROFS);
}

static int open_error(const char *path, int flags)
{
    if (is_root(path))
        return fail_with((flags & O_ACCMODE) == O_RDONLY ? EACCES : EISDIR);
    return fail_with(*path && flags & O_CREAT ? EROFS : ENOENT);
}

IT_REPLACEABLE int open(const char *path, int flags, ...)
{
    return open_error(path, flags);
}

IT_REPLACEABLE int openat(int directory, const char *path, int flags, ...)
{
    return directory == AT_FDCWD || *path == '/' ? open_error(path, flags) : descriptor_error(directory, ENOTDIR);
}

IT_REPLACEABLE int creat(const char *path, mode_t mode)
{
    (void)mode;
    return open_error(path, O_WRONLY | O_CREAT | O_TRUNC);
}

/* The descriptor stays open. */
IT_REPLACEABLE int close(int descriptor)
{
    return is_open(descriptor) ? 0 : fail_with(EBADF);
}

IT_REPLACEABLE off_t lseek(int descriptor, off_t offset, int whence)
{
    (void)offset, (void)whence;
    return descriptor_error(descriptor, ESPIPE);
}

IT_REPLACEABLE ssize_t pread(int descriptor, void *bytes, size_t count, off_t offset)
{
    (void)bytes, (void)count, (void)offset;
    return descriptor_error(descriptor, ESPIPE);
}

IT_REPLACEABLE ssize_t pwrite(int descriptor, const void *bytes, size_t count, off_t offset)
{
    (void)bytes, (void)count, (void)offset;
    return descriptor_error(descriptor, ESPIPE);
}

IT_REPLACEABLE int ftruncate(int descriptor, off_t length)
{
    (void)length;
    return descriptor_error(descriptor, EINVAL);
}

IT_REPLACEABLE int truncate(const char *path, off_t length)
{
    (void)length;
    return path_error(path, EISDIR);
}

static int fill_stat(struct stat *status, mode_t mode)
{
    memset(status, 0, sizeof *status);
    status->st_mode = mode;
    status->st_nlink = 1;
    status->st_blksize = IT_PAGE;
    return 0;
}

IT_REPLACEABLE int fstat(int descriptor, struct stat *status)
{
    return is_open(descriptor) ? fill_stat(status, PIPE_MODE) : fail_with(EBADF);
}

IT_REPLACEABLE int stat(const char *restrict path, struct stat *restrict status)
{
    return is_root(path) ? fill_stat(status, ROOT_MODE) : fail_with(ENOENT);
}

IT_REPLACEABLE int lstat(const char *restrict path, struct stat *restrict status)
{
    return stat(path, status);
}

IT_REPLACEABLE int access(const char *path, int what)
{
    if (!is_root(path))
        return fail_with(ENOENT);
    return what & W_OK ? fail_with(EROFS) : 0;
}

IT_REPLACEABLE int isatty(int descriptor)
{
    descriptor_error(descriptor, ENOTTY);
    return 0;
}

IT_REPLACEABLE char *ttyname(int descriptor)
{
    descriptor_error(descriptor, ENOTTY);
    return NULL;
}

IT_REPLACEABLE int tcgetattr(int descriptor, struct termios *modes)
{
    (void)modes;
    return descriptor_error(descriptor, ENOTTY);
}

IT_REPLACEABLE int tcsetattr(int descriptor, int when, const struct termios *modes)
{
    (void)when, (void)modes;
    return descriptor_error(descriptor, ENOTTY);
}

IT_REPLACEABLE int ioctl(int descriptor, unsigned long request, ...)
{
    (void)request;
    return descriptor_error(descriptor, ENOTTY);
}

/* There is no fourth descriptor. */
IT_REPLACEABLE int dup(int descriptor)
{
    return descriptor_error(descriptor, EMFILE);
}

IT_REPLACEABLE int dup2(int descriptor, int other)
{
    return is_open(descriptor) && descriptor == other
               ? other
               : descriptor_error(descriptor, is_open(other) ? EBUSY : EBADF);
}

IT_REPLACEABLE int pipe(int descriptors[2])
{
    (void)descriptors;
    return fail_with(EMFILE);
}

IT_REPLACEABLE int fcntl(int descriptor, int command, ...)
{
    if (!is_open(descriptor))
        return fail_with(EBADF);
    switch (command) {
    case F_DUPFD:
        return fail_with(EMFILE);
    case F_GETFD:
    case F_SETFD:
    case F_SETFL:
        return 0;
    case F_GETFL:
        return descriptor == STDIN_FILENO ? O_RDONLY : O_WRONLY;
    default:
        return fail_with(EINVAL);
    }
}

IT_REPLACEABLE int fsync(int descriptor)
{
    return descriptor_error(descriptor, EINVAL);
}

IT_REPLACEABLE int fdatasync(int descriptor)
{
    return descriptor_error(descriptor, EINVAL);
}

IT_REPLACEABLE void sync(void)
{
}

IT_REPLACEABLE int flock(int descriptor, int operation)
{
    (void)operation;
    return descriptor_error(descriptor, EINVAL);
}

/* Transfers the pieces in order, until one isn't complete. */
static ssize_t transfer_pieces(int descriptor, const struct iovec *pieces, int count,
                               ssize_t (*transfer)(int, void *, size_t))
{
    ssize_t total = 0;
    for (int k = 0; k < count; k++) {
        ssize_t transferred = transfer(descriptor, pieces[k].iov_base, pieces[k].iov_len);
        if (transferred < 0)
            return -1;
        total += transferred;
        if ((size_t)transferred < pieces[k].iov_len)
            break;
    }
    return total;
}

static ssize_t write_bytes(int descriptor, void *bytes, size_t count)
{
    return write(descriptor, bytes, count);
}

IT_RETURNS(ssize_t, writev, (int descriptor, const struct iovec *pieces, int count),
           transfer_pieces(descriptor, pieces, count, write_bytes))
IT_RETURNS(ssize_t, readv, (int descriptor, const struct iovec *pieces, int count),
           transfer_pieces(descriptor, pieces, count, read))

IT_REPLACEABLE int lockf(int descriptor, int command, off_t length)
{
    (void)command, (void)length;
    return descriptor_error(descriptor, EINVAL);
}

IT_REPLACEABLE int ttyname_r(int descriptor, char *name, size_t size)
{
    (void)name, (void)size;
    return is_open(descriptor) ? ENOTTY : EBADF;
}

/* ---------------------------------------------------------------------------------------------- names ---- */

IT_REPLACEABLE int unlink(const char *path)
{
    return path_error(path, EPERM);
}

IT_REPLACEABLE int rmdir(const char *path)
{
    return path_error(path, EBUSY);
}

IT_REPLACEABLE int rename(const char *old, const char *new)
{
    (void)new;
    return path_error(old, EBUSY);
}

IT_REPLACEABLE int link(const char *old, const char *new)
{
    (void)new;
    return path_error(old, EPERM);
}

IT_REPLACEABLE int symlink(const char *text, const char *path)
{
    (void)text;
    return create_error(path);
}

IT_REPLACEABLE ssize_t readlink(const char *restrict path, char *restrict to, size_t size)
{
    (void)to, (void)size;
    return path_error(path, EINVAL);
}

IT_REPLACEABLE int mkdir(const char *path, mode_t mode)
{
    (void)mode;
    return create_error(path);
}

IT_REPLACEABLE int mkfifo(const char *path, mode_t mode)
{
    (void)mode;
    return create_error(path);
}

IT_REPLACEABLE int chmod(const char *path, mode_t mode)
{
    (void)mode;
    return path_error(path, EROFS);
}

IT_REPLACEABLE int fchmod(int descriptor, mode_t mode)
{
    (void)mode;
    return descriptor_error(descriptor, EPERM);
}

IT_REPLACEABLE int chown(const char *path, uid_t user, gid_t group)
{
    (void)user, (void)group;
    return path_error(path, EROFS);
}

IT_REPLACEABLE int lchown(const char *path, uid_t user, gid_t group)
{
    return chown(path, user, group);
}

IT_REPLACEABLE int fchown(int descriptor, uid_t user, gid_t group)
{
    (void)user, (void)group;
    return descriptor_error(descriptor, EPERM);
}

IT_REPLACEABLE int utime(const char *path, const struct utimbuf *times)
{
    (void)times;
    return path_error(path, EROFS);
}

IT_REPLACEABLE int utimes(const char *path, const struct timeval times[2])
{
    (void)times;
    return path_error(path, EROFS);
}

IT_REPLACEABLE int chdir(const char *path)
{
    return is_root(path) ? 0 : fail_with(ENOENT);
}

IT_REPLACEABLE char *getcwd(char *to, size_t size)
{
    if (!to || size < 2) {
        errno = to && size ? ERANGE : EINVAL;
        return NULL;
    }
    return strcpy(to, "/");
}

/* No file is ever created, so the mask is never used. */
IT_REPLACEABLE mode_t umask(mode_t mask)
{
    (void)mask;
    return 022;
}

IT_REPLACEABLE char *realpath(const char *restrict path, char *restrict to)
{
    if (!path || !is_root(path)) {
        errno = path ? ENOENT : EINVAL;
        return NULL;
    }
    return to ? strcpy(to, "/") : strdup("/");
}

IT_REPLACEABLE char *mkdtemp(char *template)
{
    create_error(template);
    return NULL;
}

IT_RETURNS(int, mkostemp, (char *template, int flags), ((void)flags, create_error(template)))

/* Limits, as on Linux, although there are no files. */
IT_REPLACEABLE long pathconf(const char *path, int name)
{
    enum { LINKS = 127, LINE = 255, NAME = 255, PATH = 4096, PIPE = 4096 };
    (void)path;
    switch (name) {
    case _PC_LINK_MAX:
        return LINKS;
    case _PC_MAX_CANON:
    case _PC_MAX_INPUT:
        return LINE;
    case _PC_NAME_MAX:
        return NAME;
    case _PC_PATH_MAX:
        return PATH;
    case _PC_PIPE_BUF:
        return PIPE;
    case _PC_CHOWN_RESTRICTED:
    case _PC_NO_TRUNC:
        return 1;
    case _PC_VDISABLE:
        return 0;
    default:
        errno = EINVAL;
        return -1;
    }
}

IT_RETURNS(long, fpathconf, (int descriptor, int name), is_open(descriptor) ? pathconf("/", name) : fail_with(EBADF))

/* --------------------------------------------------------------------------------------------- from a directory ---- */

/* Functions relative to a descriptor's directory. No descriptor is a directory. */
#define AT_FUNCTION(function, parameters, call)                                                                        \
    IT_REPLACEABLE int function parameters                                                                             \
    {                                                                                                                  \
        return directory == AT_FDCWD || *path == '/' ? call : descriptor_error(directory, ENOTDIR);                    \
    }

AT_FUNCTION(fstatat, (int directory, const char *restrict path, struct stat *restrict status, int flags),
            ((void)flags, stat(path, status)))
AT_FUNCTION(faccessat, (int directory, const char *path, int what, int flags), ((void)flags, access(path, what)))
AT_FUNCTION(mkdirat, (int directory, const char *path, mode_t mode), mkdir(path, mode))
AT_FUNCTION(unlinkat, (int directory, const char *path, int flags), flags & AT_REMOVEDIR ? rmdir(path) : unlink(path))
AT_FUNCTION(fchmodat, (int directory, const char *path, mode_t mode, int flags), ((void)flags, chmod(path, mode)))
AT_FUNCTION(renameat, (int directory, const char *path, int other, const char *name), ((void)other, rename(path, name)))
