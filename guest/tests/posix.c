/* Functions of POSIX, C and BSD that the C library omits. The input has numbers. */
#define _GNU_SOURCE
#include <errno.h>
#include <fcntl.h>
#include <libintl.h>
#include <pthread.h>
#include <sched.h>
#include <search.h>
#include <stdio.h>
#include <stdlib.h>
#include <string.h>
#include <sys/stat.h>
#include <sys/uio.h>
#include <sys/utsname.h>
#include <sysexits.h>
#include <unistd.h>

static void report(const char *what, int result)
{
    printf("%s: %d%s\n", what, result, result != -1 ? "" : errno == EBADF ? " EBADF" : errno == ENOENT ? " ENOENT" : " ?");
}

static int compare(const void *one, const void *other)
{
    return *(const int *)one - *(const int *)other;
}

static void search(void)
{
    int numbers[4] = { 7, 3, 5 }, wanted = 5;
    size_t count = 3;
    printf("found at %d\n", (int)((int *)lfind(&wanted, numbers, &count, sizeof wanted, compare) - numbers));
    wanted = 9;
    printf("none: %d\n", lfind(&wanted, numbers, &count, sizeof wanted, compare) == NULL);
    int *added = lsearch(&wanted, numbers, &count, sizeof wanted, compare);
    printf("added at %d: %d, of %d\n", (int)(added - numbers), *added, (int)count);
    printf("again at %d\n", (int)((int *)lsearch(&wanted, numbers, &count, sizeof wanted, compare) - numbers));
}

static void streams(void)
{
    fpos_t place;
    int first = 0, second = 0, third = 0;
    report("read", scanf("%d", &first));
    report("place", fgetpos(stdin, &place));
    report("read", scanf("%d", &second));
    report("set", fsetpos(stdin, &place));
    report("read", scanf("%d", &third));
    printf("%d %d %d\n", first, second, third);
    fflush(stdout);
    dprintf(STDOUT_FILENO, "number %d, word %s\n", 7, "seven");
    report("no such descriptor", dprintf(77, "never"));
    fflush(stdout);
    struct iovec pieces[] = { { "one, ", 5 }, { "", 0 }, { "two\n", 4 } };
    report("written", (int)writev(STDOUT_FILENO, pieces, 3));
    report("no such descriptor", (int)writev(77, pieces, 3));
}

static void memory(void)
{
    char *text;
    size_t size;
    FILE *stream = open_memstream(&text, &size);
    fprintf(stream, "hello");
    fflush(stream);
    printf("%s, %d\n", text, (int)size);
    for (int k = 0; k < 100; k++)
        fprintf(stream, " %d", k);
    fputc('!', stream);
    printf("closed %d\n", fclose(stream));
    printf("%s, %d\n", text, (int)size);
    free(text);
}

static void texts(void)
{
    wchar_t wide[8] = { 0 };
    char narrow[8] = "";
    printf("%d characters\n", (int)mbstowcs(NULL, "text", 0));
    report("of them", (int)mbstowcs(wide, "text", 8));
    report("of them at most", (int)mbstowcs(wide, "other", 2));
    report("back", (int)wcstombs(narrow, wide, sizeof narrow));
    puts(narrow);
    printf("%s, %s, %s\n", gettext("text"), ngettext("one", "many", 1), ngettext("one", "many", 2));
    printf("%d %d %d\n", EX_OK, EX_USAGE, EX_CONFIG);
}

static void system_has(void)
{
    struct stat status;
    struct utsname name;
    char path[4096];
    report("uname", uname(&name));
    printf("real path %s\n", realpath("/.//..", path));
    report("not there", realpath("/none", path) ? 0 : -1);
    report("the directory", fstatat(AT_FDCWD, "/", &status, 0));
    report("is one", S_ISDIR(status.st_mode) != 0);
    report("may be read", faccessat(AT_FDCWD, "/", R_OK, 0));
    report("not there", unlinkat(AT_FDCWD, "/none", 0));
    report("longest name", (int)pathconf("/", _PC_NAME_MAX));
}

static void *prints(void *letter)
{
    for (int line = 0; line < 3; line++) {
        flockfile(stdout);
        flockfile(stdout);
        for (int k = 0; k < 3; k++) {
            fputs(letter, stdout);
            sched_yield();
        }
        funlockfile(stdout);
        fputs("\n", stdout);
        funlockfile(stdout);
    }
    return NULL;
}

int main(void)
{
    pthread_t one, other;
    search();
    streams();
    memory();
    texts();
    system_has();
    pthread_create(&one, NULL, prints, "a");
    pthread_create(&other, NULL, prints, "b");
    pthread_join(one, NULL);
    pthread_join(other, NULL);
    return 0;
}
