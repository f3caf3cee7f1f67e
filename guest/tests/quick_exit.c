/* quick_exit calls its own handlers, the last one first, and no others. */
#include <stdio.h>
#include <stdlib.h>

static void says(const char *text)
{
    puts(text);
    fflush(stdout);
}

static void first(void)
{
    says("first");
}

static void second(void)
{
    says("second");
}

static void never(void)
{
    says("never");
}

int main(void)
{
    atexit(never);
    at_quick_exit(second);
    at_quick_exit(first);
    says("main");
    quick_exit(6);
}
