/* Contexts of POSIX.1-2004 <ucontext.h>: a thread's registers, a stack, and the set of blocked signals. The program
   provides the stack's memory, and an overflow isn't detected. */
#ifndef IT_UCONTEXT_H
#define IT_UCONTEXT_H

#include <signal.h>

#ifdef __cplusplus
extern "C" {
#endif

typedef struct {
    unsigned registers[14]; /* ra, sp, s0 to s11 */
} mcontext_t;

typedef struct ucontext {
    mcontext_t uc_mcontext; /* first, as guest/lib/more/contexts.c relies on that */
    struct ucontext *uc_link;
    stack_t uc_stack;
    sigset_t uc_sigmask;
} ucontext_t;

/* Returns 0, and again for each setcontext. */
int getcontext(ucontext_t *context) __attribute__((__returns_twice__));
int setcontext(const ucontext_t *context);
int swapcontext(ucontext_t *__restrict old, const ucontext_t *__restrict context);

/* The function gets `count` words. When it returns, uc_link is resumed, or the thread ends if that is null. */
void makecontext(ucontext_t *context, void (*function)(void), int count, ...);

#ifdef __cplusplus
}
#endif

#endif
