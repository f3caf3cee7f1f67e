/* Files that don't exist: the same natively. */
#include <errno.h>
#include <fcntl.h>
#include <stdio.h>
#include <string.h>
#include <sys/stat.h>
#include <unistd.h>

static void report(const char *what, int result)
{
    const char *why = errno == ENOENT ? "no such file" : errno == EBADF ? "not open" : errno == ENOTTY ? "no terminal" : "?";
    printf("%s: %s\n", what, result < 0 ? why : "done");
}

int main(void)
{
    struct stat status;
    int most = 100; /* descriptors above it are not open */
    FILE *file = fopen("/nowhere/at/all", "r");
    report("fopen", file ? 0 : -1);
    report("open", open("/nowhere/at/all", O_RDWR));
    report("stat", stat("/nowhere/at/all", &status));
    report("lstat", lstat("/nowhere/at/all", &status));
    report("the root's stat", stat("/", &status));
    printf("a directory: %d\n", !!S_ISDIR(status.st_mode));
    report("access", access("/nowhere/at/all", R_OK));
    report("the root's access", access("/", R_OK));
    report("unlink", unlink("/nowhere/at/all"));
    report("remove", remove("/nowhere/at/all"));
    report("rename", rename("/nowhere/at/all", "/nowhere/else"));
    report("rmdir", rmdir("/nowhere/at/all"));
    report("chmod", chmod("/nowhere/at/all", 0600));
    report("chdir", chdir("/nowhere/at/all"));
    report("truncate", truncate("/nowhere/at/all", 0));
    report("readlink", (int)readlink("/nowhere/at/all", (char *)&status, sizeof status));
    report("close", close(most));
    report("lseek", (int)lseek(most, 0, SEEK_SET));
    report("fstat", fstat(most, &status));
    report("fsync", fsync(most));
    report("ftruncate", ftruncate(most, 0));
    report("dup", dup(most));
    report("fcntl", fcntl(most, F_GETFD));
    printf("isatty: %d\n", isatty(0));
    report("isatty", -1);
    printf("isatty of none: %d\n", isatty(most));
    report("isatty of none", -1);
    report("fstat of stdin", fstat(0, &status));
    return 0;
}
