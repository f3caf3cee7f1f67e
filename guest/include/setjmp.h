/* The C library's setjmp.h, and what it omits of POSIX.1-2017 <setjmp.h>. */
#include_next <setjmp.h>
#ifndef IT_SETJMP_H
#define IT_SETJMP_H

#include <sys/_sigset.h>

#ifdef __cplusplus
extern "C" {
#endif

/* If `save` isn't 0, sigsetjmp saves the thread's set of blocked signals, and siglongjmp restores it. */
typedef struct {
    jmp_buf registers;
    int saved;
    __sigset_t blocked;
} sigjmp_buf[1];
void it_keep_blocked(sigjmp_buf buffer);
#define sigsetjmp(buffer, save)                                                                                        \
    ((save) ? it_keep_blocked(buffer) : (void)((buffer)->saved = 0), setjmp((buffer)->registers))
void siglongjmp(sigjmp_buf buffer, int value) __attribute__((__noreturn__));

#define _setjmp(buffer) setjmp(buffer)
#define _longjmp(buffer, value) longjmp(buffer, value)

#ifdef __cplusplus
}
#endif

#endif
