/* Files, on a system with only a directory that can't be written to. */
#include <errno.h>
#include <fcntl.h>
#include <stdio.h>
#include <stdlib.h>
#include <string.h>
#include <sys/stat.h>
#include <unistd.h>

static const char *name(void)
{
    switch (errno) {
    case ENOENT: return "ENOENT";
    case EROFS: return "EROFS";
    case EBADF: return "EBADF";
    case ESPIPE: return "ESPIPE";
    case ENOTTY: return "ENOTTY";
    case EMFILE: return "EMFILE";
    case EISDIR: return "EISDIR";
    case EACCES: return "EACCES";
    case EEXIST: return "EEXIST";
    case EINVAL: return "EINVAL";
    case EBUSY: return "EBUSY";
    case EPERM: return "EPERM";
    default: return "another";
    }
}

static void report(const char *what, int result)
{
    printf("%s: %d %s\n", what, result, result < 0 ? name() : "");
}

int main(void)
{
    char text[8];
    struct stat status;
    report("open to read", open("a", O_RDONLY));
    report("open to write", open("a", O_WRONLY));
    report("open to make", open("a", O_RDWR | O_CREAT, 0666));
    report("open the directory", open("/", O_RDONLY));
    report("open the directory to write", open(".", O_WRONLY));
    report("creat", creat("/b", 0666));
    report("close 0", close(0));
    report("close 3", close(3));
    report("lseek 0", (int)lseek(0, 0, SEEK_CUR));
    report("lseek 3", (int)lseek(3, 0, SEEK_CUR));
    report("pread 0", (int)pread(0, text, 1, 0));
    report("fstat 1", fstat(1, &status));
    printf("a pipe: %d\n", S_ISFIFO(status.st_mode));
    report("fstat 3", fstat(3, &status));
    report("stat of a name", stat("a", &status));
    report("stat of the directory", stat("./..", &status));
    printf("a directory: %d\n", S_ISDIR(status.st_mode));
    report("access of a name", access("a/b", F_OK));
    report("access of the directory to read", access("/", R_OK | X_OK));
    report("access of the directory to write", access("//", W_OK));
    errno = 0;
    printf("isatty 0: %d", isatty(0));
    printf(" %s\n", name());
    printf("isatty 3: %d", isatty(3));
    printf(" %s\n", name());
    report("dup", dup(1));
    report("dup2 to itself", dup2(1, 1));
    report("dup2 to another", dup2(1, 2));
    report("fcntl F_GETFL", fcntl(1, F_GETFL) == O_WRONLY);
    report("unlink", unlink("a"));
    report("unlink of the directory", unlink("."));
    report("remove", remove("a"));
    report("rename", rename("a", "b"));
    report("mkdir", mkdir("a", 0777));
    report("mkdir of the directory", mkdir("/", 0777));
    report("rmdir", rmdir("a"));
    report("chdir", chdir("/"));
    report("chdir to a name", chdir("a"));
    printf("getcwd: %s\n", getcwd(text, sizeof text));
    report("fopen", fopen("a", "r") ? 0 : -1);
    report("fopen to write", fopen("a", "w") ? 0 : -1);
    errno = 0;
    report("fopen to append", fopen("a", "a") ? 0 : -1);
    return 0;
}
