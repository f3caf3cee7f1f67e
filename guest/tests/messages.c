/* Messages of err.h and error.h, and the program's name. */
#define _GNU_SOURCE
#include <err.h>
#include <errno.h>
#include <error.h>
#include <stdio.h>
#include <string.h>

extern char *__progname;

int main(void)
{
    setvbuf(stdout, NULL, _IONBF, 0);
    errno = ENOENT;
    warn("text %d", 5);
    printf("kept: %d\n", errno == ENOENT);
    warnx("text alone");
    errno = EINVAL;
    warn(NULL);
    warnx(NULL);
    error(0, 0, "first");
    error(0, ENOENT, "second %s", "word");
    error_at_line(0, 0, "file.c", 7, "third");
    error_one_per_line = 1;
    error_at_line(0, EACCES, "file.c", 7, "again %d", 1);
    error_at_line(0, 0, "file.c", 7, "never");
    error_at_line(0, 0, "file.c", 8, "another line");
    error_at_line(0, 0, NULL, 8, "no file");
    printf("%u messages\n", error_message_count);
    printf("name: %d %d\n", strcmp(program_invocation_short_name, "messages"), strcmp(__progname, "messages"));
    errno = EACCES;
    err(3, "last");
}
