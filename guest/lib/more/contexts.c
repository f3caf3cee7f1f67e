/* Contexts: a context begins with the list of registers that a function preserves. */
#include <pthread.h>
#include <stdarg.h>
#include <ucontext.h>
#include "../library.h"

enum { RA, SP, S0, S1, S2, REGISTER_ARGUMENTS = 8, ALIGN = 16 };

/* Linked only into a program that blocks signals. */
extern __attribute__((weak)) int sigprocmask(int how, const sigset_t *restrict set, sigset_t *restrict old);

#define EACH_REGISTER(op)                                                                                              \
    op(ra, 0) op(sp, 4) op(s0, 8) op(s1, 12) op(s2, 16) op(s3, 20) op(s4, 24) op(s5, 28) op(s6, 32) op(s7, 36)         \
    op(s8, 40) op(s9, 44) op(s10, 48) op(s11, 52)
#define SAVE(name, offset) "sw " #name ", " #offset "(a0)\n\t"
#define LOAD(name, offset) "lw " #name ", " #offset "(a0)\n\t"

/* it_begin_context calls a function of makecontext: s0 is the function, s1 the context to resume after it, and s2 to s9
   are its first words. */
__asm__(".section .text.it_contexts,\"ax\",@progbits\n"
        ".globl getcontext, swapcontext, it_resume, it_begin_context\n"
        "getcontext:\n\t" EACH_REGISTER(SAVE) "tail it_save_context\n"
        "swapcontext:\n\t" EACH_REGISTER(SAVE) "tail it_swap_context\n"
        "it_resume:\n\t" EACH_REGISTER(LOAD) "li a0, 0\n\tret\n"
        "it_begin_context:\n\t"
        "mv a0, s2\n\tmv a1, s3\n\tmv a2, s4\n\tmv a3, s5\n\tmv a4, s6\n\tmv a5, s7\n\tmv a6, s8\n\tmv a7, s9\n\t"
        "jalr s0\n\t"
        "mv a0, s1\n\t"
        "tail it_end_context\n\t"
        ".text\n");

extern const char it_begin_context[];
__attribute__((noreturn)) void it_resume(const ucontext_t *context);

__attribute__((used)) int it_save_context(ucontext_t *context)
{
    if (sigprocmask)
        sigprocmask(SIG_BLOCK, NULL, &context->uc_sigmask);
    return 0;
}

int setcontext(const ucontext_t *context)
{
    if (sigprocmask)
        sigprocmask(SIG_SETMASK, &context->uc_sigmask, NULL);
    it_resume(context);
}

__attribute__((used)) int it_swap_context(ucontext_t *restrict old, const ucontext_t *restrict context)
{
    it_save_context(old);
    return setcontext(context);
}

__attribute__((used, noreturn)) void it_end_context(const ucontext_t *next)
{
    if (next)
        setcontext(next);
    pthread_exit(NULL);
}

void makecontext(ucontext_t *context, void (*function)(void), int count, ...)
{
    unsigned *registers = context->uc_mcontext.registers;
    unsigned on_stack = count > REGISTER_ARGUMENTS ? (unsigned)(count - REGISTER_ARGUMENTS) : 0;
    unsigned top = (unsigned)context->uc_stack.ss_sp + context->uc_stack.ss_size;
    unsigned *stack = (unsigned *)((top - on_stack * sizeof(unsigned)) & -(unsigned)ALIGN);
    va_list words;
    va_start(words, count);
    for (int k = 0; k < count; k++)
        *(k < REGISTER_ARGUMENTS ? &registers[S2 + k] : &stack[k - REGISTER_ARGUMENTS]) = va_arg(words, unsigned);
    va_end(words);
    registers[RA] = (unsigned)it_begin_context;
    registers[SP] = (unsigned)stack;
    registers[S0] = (unsigned)function;
    registers[S1] = (unsigned)context->uc_link;
}
