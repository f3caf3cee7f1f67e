/* Jumps that save and restore the set of blocked signals. */
#include <setjmp.h>
#include <signal.h>

void it_keep_blocked(sigjmp_buf buffer)
{
    buffer->saved = 1;
    pthread_sigmask(SIG_BLOCK, NULL, &buffer->blocked);
}

/* Linked only into a program that saves the set. */
extern __attribute__((weak)) int sigprocmask(int how, const sigset_t *restrict set, sigset_t *restrict old);

void siglongjmp(sigjmp_buf buffer, int value)
{
    if (buffer->saved)
        sigprocmask(SIG_SETMASK, &buffer->blocked, NULL);
    longjmp(buffer->registers, value);
}
