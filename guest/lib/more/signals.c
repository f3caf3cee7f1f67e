/* Signals that a program sends to itself. Pending signals and actions are on one page that all threads share; the set
   of blocked signals is a thread's own. A handler is called in the function that sends or unblocks its signal. */
#include <errno.h>
#include <signal.h>
#include <stdio.h>
#include <string.h>
#include <unistd.h>
#include "../library.h"

enum { INTERNAL = 32, MAX_PENDING = 128, WHOLE_PROCESS = IT_THREADS, SIGNAL_EXIT_BASE = 128 };

static struct IT_PAGE_ALIGNED {
    struct sigaction action[NSIG];
    unsigned count, waiters; /* threads that wait for a signal */
    struct pending {
        siginfo_t info;
        unsigned thread; /* or WHOLE_PROCESS */
    } pending[MAX_PENDING]; /* in order of arrival */
} signals;

static _Thread_local sigset_t blocked;
static _Thread_local unsigned handled; /* how many handlers have returned */

/* ---------------------------------------------------------------------------------------------- sets ---- */

static int fail_with(int error)
{
    errno = error;
    return -1;
}

/* The two numbers after the standard signals are glibc's own on Linux. */
static int is_signal(int number)
{
    return number > 0 && number < NSIG && (number < INTERNAL || number >= SIGRTMIN);
}

static sigset_t signal_bit(int number)
{
    return 1ull << (number - 1);
}

static sigset_t without_unblockable(sigset_t set)
{
    return set & ~(signal_bit(SIGKILL) | signal_bit(SIGSTOP));
}

int sigemptyset(sigset_t *set)
{
    *set = 0;
    return 0;
}

int sigfillset(sigset_t *set)
{
    *set = ~(signal_bit(INTERNAL) | signal_bit(INTERNAL + 1));
    return 0;
}

int sigaddset(sigset_t *set, int number)
{
    if (!is_signal(number))
        return fail_with(EINVAL);
    *set |= signal_bit(number);
    return 0;
}

int sigdelset(sigset_t *set, int number)
{
    if (!is_signal(number))
        return fail_with(EINVAL);
    *set &= ~signal_bit(number);
    return 0;
}

int sigismember(const sigset_t *set, int number)
{
    return is_signal(number) ? (*set & signal_bit(number)) != 0 : fail_with(EINVAL);
}

/* ---------------------------------------------------------------------------------------------- taking ---- */

/* Whether the thread takes the first before the second: its own before the process's, then the lower number first. */
static int precedes(const struct pending *first, const struct pending *second)
{
    if (first->thread != second->thread)
        return first->thread != WHOLE_PROCESS;
    return first->info.si_signo < second->info.si_signo;
}

/* The place of the next signal of a set that the thread may take; all.count if there is none. */
static unsigned next_pending(sigset_t set)
{
    unsigned found = signals.count;
    for (unsigned k = 0; k < signals.count; k++) {
        const struct pending *entry = &signals.pending[k];
        if (entry->thread != WHOLE_PROCESS && entry->thread != it_self.number)
            continue;
        if ((set & signal_bit(entry->info.si_signo))
            && (found == signals.count || precedes(entry, &signals.pending[found])))
            found = k;
    }
    return found;
}

static void remove_pending(unsigned index)
{
    for (signals.count--; index < signals.count; index++)
        signals.pending[index] = signals.pending[index + 1];
}

static int take_pending(sigset_t set, siginfo_t *info)
{
    it_lock_library();
    unsigned index = next_pending(set);
    int found = index < signals.count;
    if (found) {
        *info = signals.pending[index].info;
        remove_pending(index);
    }
    it_unlock_library();
    return found;
}

static int is_ignored(int number, _sig_func_ptr handler)
{
    sigset_t ignored_by_default = signal_bit(SIGCHLD) | signal_bit(SIGCONT) | signal_bit(SIGURG) | signal_bit(SIGWINCH);
    return handler == SIG_IGN || (handler == SIG_DFL && (ignored_by_default & signal_bit(number)));
}

static __attribute__((noreturn)) void end_by_signal(int number)
{
    fprintf(stderr, "guest ended: %s\n", strsignal(number));
    it_finish_io();
    _exit(SIGNAL_EXIT_BASE + number);
}

static void handle_pending(void);

/* As on Linux, other pending signals that the handler doesn't block are handled first. */
static void handle_signal(siginfo_t *info)
{
    int number = info->si_signo;
    struct sigaction action = signals.action[number];
    sigset_t previous = blocked;
    if (is_ignored(number, action.sa_handler))
        return;
    if (action.sa_handler == SIG_DFL)
        end_by_signal(number);
    if (action.sa_flags & (int)SA_RESETHAND)
        signals.action[number].sa_handler = SIG_DFL;
    blocked |= action.sa_mask;
    if (!(action.sa_flags & SA_NODEFER))
        blocked |= signal_bit(number);
    handle_pending();
    if (action.sa_flags & SA_SIGINFO)
        action.sa_sigaction(number, info, NULL);
    else
        action.sa_handler(number);
    blocked = previous;
    handled++;
}

static void handle_pending(void)
{
    siginfo_t info;
    while (take_pending(~blocked, &info))
        handle_signal(&info);
}

#ifdef IT_SIGNALS
int it_take_signals(void)
{
    unsigned handled_before = handled;
    if (signals.count)
        handle_pending();
    return handled != handled_before;
}
#endif

/* ---------------------------------------------------------------------------------------------- sending ---- */

static int add_pending(unsigned thread, const siginfo_t *info)
{
    for (unsigned k = 0; k < signals.count && info->si_signo < SIGRTMIN; k++)
        if (signals.pending[k].thread == thread && signals.pending[k].info.si_signo == info->si_signo)
            return 0;
    if (signals.count == MAX_PENDING)
        return EAGAIN;
    signals.pending[signals.count++] = (struct pending) { *info, thread };
    return 0;
}

static int send(unsigned thread, int number, int code, union sigval value)
{
    siginfo_t info = { .si_signo = number, .si_code = code, .si_pid = getpid(), .si_uid = getuid(), .si_value = value };
    if (number == 0)
        return 0;
    if (!is_signal(number))
        return EINVAL;
    if (it_self.io_pending)
        it_finish_io();
    it_lock_library();
    int error = add_pending(thread, &info), wake = signals.waiters != 0;
    it_unlock_library();
    if (wake)
        it_call(IT_CALL_BROADCAST, it_number_or_end(IT_CONDITION, &signals), 0);
    handle_pending();
    return error;
}

static int errno_result(int error)
{
    return error == 0 ? 0 : fail_with(error);
}

int pthread_kill(pthread_t thread, int number)
{
    return thread < IT_THREADS ? send(thread, number, SI_TKILL, (union sigval) { 0 }) : ESRCH;
}

int raise(int number)
{
    return errno_result(number == 0 ? 0 : pthread_kill(it_self.number, number));
}

static int is_own_process(pid_t process)
{
    return process == 0 || process == getpid() || process == -getpid();
}

IT_REPLACEABLE int kill(pid_t process, int number)
{
    if (number != 0 && !is_signal(number))
        return fail_with(EINVAL);
    return errno_result(is_own_process(process) ? send(WHOLE_PROCESS, number, SI_USER, (union sigval) { 0 }) : ESRCH);
}

IT_REPLACEABLE int killpg(pid_t group, int number)
{
    return group < 0 ? fail_with(EINVAL) : kill(-group, number);
}

IT_REPLACEABLE int sigqueue(pid_t process, int number, const union sigval value)
{
    if (number != 0 && !is_signal(number))
        return fail_with(EINVAL);
    return errno_result(process == getpid() ? send(WHOLE_PROCESS, number, SI_QUEUE, value) : ESRCH);
}

/* POSIX.1-2017 abort raises SIGABRT even if it is blocked. */
void it_raise_abort(void)
{
    _sig_func_ptr handler = signals.action[SIGABRT].sa_handler;
    blocked &= ~signal_bit(SIGABRT);
    if (handler != SIG_DFL && handler != SIG_IGN)
        raise(SIGABRT);
}

/* ---------------------------------------------------------------------------------------------- actions ---- */

int sigaction(int number, const struct sigaction *restrict action, struct sigaction *restrict old)
{
    if (!is_signal(number) || (action && (number == SIGKILL || number == SIGSTOP)))
        return fail_with(EINVAL);
    struct sigaction previous = signals.action[number];
    if (action) {
        it_lock_library();
        signals.action[number] = *action;
        signals.action[number].sa_mask = without_unblockable(action->sa_mask);
        for (unsigned k = 0; k < signals.count && is_ignored(number, action->sa_handler);)
            if (signals.pending[k].info.si_signo == number)
                remove_pending(k);
            else
                k++;
        it_unlock_library();
    }
    if (old)
        *old = previous;
    return 0;
}

_sig_func_ptr signal(int number, _sig_func_ptr handler)
{
    struct sigaction action = { .sa_handler = handler, .sa_flags = SA_RESTART }, old;
    return sigaction(number, &action, &old) == 0 ? old.sa_handler : SIG_ERR;
}

IT_REPLACEABLE int siginterrupt(int number, int interrupts)
{
    struct sigaction action;
    if (sigaction(number, NULL, &action) != 0)
        return -1;
    action.sa_flags = interrupts ? action.sa_flags & ~SA_RESTART : action.sa_flags | SA_RESTART;
    return sigaction(number, &action, NULL);
}

/* ---------------------------------------------------------------------------------------------- blocking ---- */

int pthread_sigmask(int how, const sigset_t *restrict set, sigset_t *restrict old)
{
    sigset_t previous = blocked;
    if (set) {
        if (how != SIG_BLOCK && how != SIG_UNBLOCK && how != SIG_SETMASK)
            return EINVAL;
        sigset_t changed = how == SIG_BLOCK ? previous | *set : how == SIG_UNBLOCK ? previous & ~*set : *set;
        blocked = without_unblockable(changed);
        handle_pending();
    }
    if (old)
        *old = previous;
    return 0;
}

int sigprocmask(int how, const sigset_t *restrict set, sigset_t *restrict old)
{
    return errno_result(pthread_sigmask(how, set, old));
}

sigset_t it_blocked_signals(void)
{
    return blocked;
}

void it_block_signals(sigset_t set)
{
    blocked = set;
}

int sigpending(sigset_t *set)
{
    *set = 0;
    it_lock_library();
    for (unsigned k = 0; k < signals.count; k++)
        if (signals.pending[k].thread == WHOLE_PROCESS || signals.pending[k].thread == it_self.number)
            *set |= blocked & signal_bit(signals.pending[k].info.si_signo);
    it_unlock_library();
    return 0;
}

/* ---------------------------------------------------------------------------------------------- waiting ---- */

static void wait_for_pending(sigset_t set)
{
    unsigned condition = it_number_or_end(IT_CONDITION, &signals);
    it_ordered_call(IT_CALL_LOCK, IT_OWN_MUTEX, 0);
    signals.waiters++;
    while (next_pending(set) == signals.count)
        it_call(IT_CALL_COND_WAIT, condition, IT_OWN_MUTEX);
    signals.waiters--;
    it_call(IT_CALL_UNLOCK, IT_OWN_MUTEX, 0);
}

int sigsuspend(const sigset_t *mask)
{
    sigset_t previous = blocked;
    unsigned handled_before = handled;
    blocked = without_unblockable(*mask);
    for (handle_pending(); handled == handled_before; handle_pending())
        wait_for_pending(~blocked);
    blocked = previous;
    handle_pending();
    return fail_with(EINTR);
}

IT_REPLACEABLE int pause(void)
{
    return sigsuspend(&blocked);
}

int sigwaitinfo(const sigset_t *restrict set, siginfo_t *restrict info)
{
    siginfo_t taken;
    while (!take_pending(*set, &taken))
        wait_for_pending(*set);
    if (taken.si_code == SI_TKILL)
        taken.si_code = SI_USER; /* as in glibc */
    if (info)
        *info = taken;
    return taken.si_signo;
}

int sigwait(const sigset_t *restrict set, int *restrict number)
{
    *number = sigwaitinfo(set, NULL);
    return 0;
}

/* ---------------------------------------------------------------------------------------------- X/Open ---- */

static int change_mask(int how, int number)
{
    sigset_t set = 0;
    return sigaddset(&set, number) == 0 ? sigprocmask(how, &set, NULL) : -1;
}

IT_RETURNS(int, sighold, (int number), change_mask(SIG_BLOCK, number))
IT_RETURNS(int, sigrelse, (int number), change_mask(SIG_UNBLOCK, number))
IT_RETURNS(int, sigignore, (int number), signal(number, SIG_IGN) == SIG_ERR ? -1 : 0)

IT_REPLACEABLE int sigpause(int number)
{
    sigset_t set = blocked;
    return sigdelset(&set, number) == 0 ? sigsuspend(&set) : -1;
}

IT_REPLACEABLE _sig_func_ptr sigset(int number, _sig_func_ptr handler)
{
    struct sigaction action = { .sa_handler = handler }, old;
    if (sigaction(number, handler == SIG_HOLD ? NULL : &action, &old) != 0)
        return SIG_ERR;
    int was_blocked = sigismember(&blocked, number);
    change_mask(handler == SIG_HOLD ? SIG_BLOCK : SIG_UNBLOCK, number);
    return was_blocked ? SIG_HOLD : old.sa_handler;
}

/* ---------------------------------------------------------------------------------------------- names ---- */

char *strsignal(int number)
{
    static const char *const names[] = {
        [SIGHUP] = "Hangup", [SIGINT] = "Interrupt", [SIGQUIT] = "Quit", [SIGILL] = "Illegal instruction",
        [SIGTRAP] = "Trace/breakpoint trap", [SIGABRT] = "Aborted", [SIGBUS] = "Bus error",
        [SIGFPE] = "Floating point exception", [SIGKILL] = "Killed", [SIGUSR1] = "User defined signal 1",
        [SIGSEGV] = "Segmentation fault", [SIGUSR2] = "User defined signal 2", [SIGPIPE] = "Broken pipe",
        [SIGALRM] = "Alarm clock", [SIGTERM] = "Terminated", [SIGSTKFLT] = "Stack fault", [SIGCHLD] = "Child exited",
        [SIGCONT] = "Continued", [SIGSTOP] = "Stopped (signal)", [SIGTSTP] = "Stopped",
        [SIGTTIN] = "Stopped (tty input)", [SIGTTOU] = "Stopped (tty output)", [SIGURG] = "Urgent I/O condition",
        [SIGXCPU] = "CPU time limit exceeded", [SIGXFSZ] = "File size limit exceeded",
        [SIGVTALRM] = "Virtual timer expired", [SIGPROF] = "Profiling timer expired", [SIGWINCH] = "Window changed",
        [SIGIO] = "I/O possible", [SIGPWR] = "Power failure", [SIGSYS] = "Bad system call",
    };
    static _Thread_local char other[32];
    if (number > 0 && number <= SIGSYS)
        return (char *)names[number];
    if (number >= SIGRTMIN && number <= SIGRTMAX)
        snprintf(other, sizeof other, "Real-time signal %d", number - SIGRTMIN);
    else
        snprintf(other, sizeof other, "Unknown signal %d", number);
    return other;
}

void psignal(int number, const char *text)
{
    if (text && *text)
        fprintf(stderr, "%s: %s\n", text, strsignal(number));
    else
        fprintf(stderr, "%s\n", strsignal(number));
}
