/* Signals, POSIX.1-2017 <signal.h>, for a program that gets only those that it sends itself: by raise, kill, killpg,
   sigqueue and pthread_kill. Numbers and default actions are Linux's; a signal that would end or stop the process ends
   the guest with a message and the code 128 + its number. An invalid access or a division by zero raises no signal.

   The sender takes a signal to itself or to the process before the sending call returns, unless it blocks the signal.
   Another thread takes its signals when it next sends a signal, sets its mask, waits for a signal or sleeps: nothing
   interrupts it.

   A function returns 0; or -1, and sets errno. */
#ifndef _SIGNAL_H_
#define _SIGNAL_H_

#include <stddef.h>
#include <sys/_sigset.h>
#include <sys/_timespec.h>
#include <sys/types.h>

#ifdef __cplusplus
extern "C" {
#endif

#ifndef _SIGSET_T_DECLARED
#define _SIGSET_T_DECLARED
typedef __sigset_t sigset_t;
#endif
typedef int sig_atomic_t;
typedef unsigned pthread_t;

#define SIGHUP 1
#define SIGINT 2
#define SIGQUIT 3
#define SIGILL 4
#define SIGTRAP 5
#define SIGABRT 6
#define SIGIOT SIGABRT
#define SIGBUS 7
#define SIGFPE 8
#define SIGKILL 9
#define SIGUSR1 10
#define SIGSEGV 11
#define SIGUSR2 12
#define SIGPIPE 13
#define SIGALRM 14
#define SIGTERM 15
#define SIGSTKFLT 16
#define SIGCHLD 17
#define SIGCLD SIGCHLD
#define SIGCONT 18
#define SIGSTOP 19
#define SIGTSTP 20
#define SIGTTIN 21
#define SIGTTOU 22
#define SIGURG 23
#define SIGXCPU 24
#define SIGXFSZ 25
#define SIGVTALRM 26
#define SIGPROF 27
#define SIGWINCH 28
#define SIGIO 29
#define SIGPOLL SIGIO
#define SIGPWR 30
#define SIGSYS 31
#define SIGRTMIN 34 /* signals from here to SIGRTMAX are queued each time they are sent */
#define SIGRTMAX 64
#define NSIG 65
#define _NSIG NSIG

typedef void (*_sig_func_ptr)(int);
typedef _sig_func_ptr sig_t, sighandler_t;
#define SIG_DFL ((_sig_func_ptr)0)
#define SIG_IGN ((_sig_func_ptr)1)
#define SIG_HOLD ((_sig_func_ptr)2)
#define SIG_ERR ((_sig_func_ptr)-1)

union sigval {
    int sival_int;
    void *sival_ptr;
};

#define SI_USER 0    /* kill */
#define SI_QUEUE (-1)
#define SI_TIMER (-2)
#define SI_MESGQ (-3)
#define SI_ASYNCIO (-4)
#define SI_TKILL (-6) /* raise, pthread_kill */

typedef struct {
    int si_signo, si_errno, si_code;
    pid_t si_pid;
    uid_t si_uid;
    int si_status;
    void *si_addr;
    union sigval si_value;
} siginfo_t;
#define si_int si_value.sival_int
#define si_ptr si_value.sival_ptr

#define SIGEV_SIGNAL 0
#define SIGEV_NONE 1
#define SIGEV_THREAD 2
struct sigevent {
    union sigval sigev_value;
    int sigev_signo, sigev_notify;
    void (*sigev_notify_function)(union sigval);
    void *sigev_notify_attributes;
};

/* SA_RESTART, SA_ONSTACK and the flags for children have no effect. A handler's third argument is null. */
#define SA_NOCLDSTOP 1
#define SA_NOCLDWAIT 2
#define SA_SIGINFO 4
#define SA_ONSTACK 0x08000000
#define SA_RESTART 0x10000000
#define SA_NODEFER 0x40000000
#define SA_RESETHAND 0x80000000
struct sigaction {
    union {
        _sig_func_ptr sa_handler;
        void (*sa_sigaction)(int, siginfo_t *, void *);
    };
    sigset_t sa_mask;
    int sa_flags;
};

/* EINVAL if there is no such signal, or if an action is given for SIGKILL or SIGSTOP. */
int sigaction(int number, const struct sigaction *__restrict action, struct sigaction *__restrict old);

/* As sigaction with SA_RESTART. Returns the previous handler, or SIG_ERR. */
_sig_func_ptr signal(int number, _sig_func_ptr handler);

/* EINVAL if there is no such signal; 0 sends nothing. ESRCH if the process is another. EAGAIN if 128 are pending. */
int raise(int number);
int kill(pid_t process, int number);
int killpg(pid_t group, int number);
int sigqueue(pid_t process, int number, const union sigval value);

/* The same for a thread; returns the error. */
int pthread_kill(pthread_t thread, int number);

/* EINVAL if there is no such signal. */
int sigemptyset(sigset_t *set);
int sigfillset(sigset_t *set);
int sigaddset(sigset_t *set, int number);
int sigdelset(sigset_t *set, int number);
int sigismember(const sigset_t *set, int number);

/* A thread inherits its creator's set. pthread_sigmask returns the error. */
#define SIG_BLOCK 0
#define SIG_UNBLOCK 1
#define SIG_SETMASK 2
int sigprocmask(int how, const sigset_t *__restrict set, sigset_t *__restrict old);
int pthread_sigmask(int how, const sigset_t *__restrict set, sigset_t *__restrict old);

/* Gets the signals that are pending for the thread or the process and that the thread blocks. */
int sigpending(sigset_t *set);

/* Wait until a handler has returned, then fail with EINTR. */
int sigsuspend(const sigset_t *mask);
int pause(void);

/* Wait for a signal of the set and take it. sigwait returns the error, and sigwaitinfo the signal's number. */
int sigwait(const sigset_t *__restrict set, int *__restrict number);
int sigwaitinfo(const sigset_t *__restrict set, siginfo_t *__restrict info);

/* Not in the library: no wait for a signal has a time limit, and handlers run on the thread's stack. */
int sigtimedwait(const sigset_t *__restrict set, siginfo_t *__restrict info, const struct timespec *__restrict time);
#define SS_ONSTACK 1
#define SS_DISABLE 2
#define MINSIGSTKSZ 2048
#define SIGSTKSZ 8192
typedef struct {
    void *ss_sp;
    int ss_flags;
    size_t ss_size;
} stack_t;
int sigaltstack(const stack_t *__restrict stack, stack_t *__restrict old);

/* The older functions of the X/Open extension. */
int sighold(int number);
int sigrelse(int number);
int sigignore(int number);
int sigpause(int number);
int siginterrupt(int number, int interrupts);
_sig_func_ptr sigset(int number, _sig_func_ptr handler);

void psignal(int number, const char *text);

#ifdef __cplusplus
}
#endif

#endif
