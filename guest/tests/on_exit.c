/* Handlers of on_exit get the code and an argument, and are called in order with those of atexit. */
#define _GNU_SOURCE
#include <stdio.h>
#include <stdlib.h>

static void coded(int code, void *text)
{
    printf("%d %s\n", code, (const char *)text);
}

static void plain(void)
{
    puts("plain");
}

static void never(void)
{
    puts("never");
}

int main(void)
{
    at_quick_exit(never);
    on_exit(coded, "last");
    atexit(plain);
    on_exit(coded, "first");
    puts("main");
    return 5;
}
