/* Contexts: a generator, words for a function, what is resumed after one, and a context that is set again. */
#include <stdio.h>
#include <stdlib.h>
#include <ucontext.h>

enum { STACK = 16384, VALUES = 5 };

static ucontext_t ours, generator, last;
static char stacks[2][STACK];
static int value;

static void generate(int from, int step)
{
    for (int k = 0; k < VALUES; k++) {
        value = from + k * step;
        swapcontext(&generator, &ours);
    }
    puts("generated");
}

static void adds(int a, int b, int c, int d, int e, int f, int g, int h, int i, int j)
{
    printf("%d %d %d %d %d %d %d %d %d %d\n", a, b, c, d, e, f, g, h, i, j);
}

static void prepare(ucontext_t *context, int which)
{
    getcontext(context);
    context->uc_stack.ss_sp = stacks[which];
    context->uc_stack.ss_size = STACK;
    context->uc_link = &ours;
}

static void sets_again(void)
{
    volatile int times = 0;
    ucontext_t here;
    getcontext(&here);
    printf("times %d\n", times);
    if (times++ < 3)
        setcontext(&here);
}

static void ends(void)
{
    puts("the end");
}

int main(void)
{
    prepare(&generator, 0);
    makecontext(&generator, (void (*)(void))generate, 2, 10, -3);
    for (int k = 0; k < VALUES; k++) {
        swapcontext(&ours, &generator);
        printf("value %d\n", value);
    }
    swapcontext(&ours, &generator);
    prepare(&last, 1);
    makecontext(&last, (void (*)(void))adds, 10, 1, 2, 3, 4, 5, 6, 7, 8, 9, 10);
    printf("swapped %d\n", swapcontext(&ours, &last));
    sets_again();
    prepare(&last, 1);
    last.uc_link = NULL;
    makecontext(&last, ends, 0);
    fflush(stdout);
    setcontext(&last);
    puts("never");
    return 1;
}
