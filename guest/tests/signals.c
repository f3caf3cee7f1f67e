/* Signals that a program sends to itself, and to a thread that waits for one. */
#define _GNU_SOURCE
#include <errno.h>
#include <pthread.h>
#include <setjmp.h>
#include <signal.h>
#include <stdio.h>
#include <stdlib.h>
#include <string.h>
#include <unistd.h>

static sigjmp_buf back;

static void report(const char *what, int result)
{
    printf("%s: %d %s\n", what, result, result == -1 ? errno == EINVAL ? "EINVAL" : errno == ESRCH ? "ESRCH"
           : errno == EINTR ? "EINTR" : "another" : "");
}

static sigset_t set_of(int first, int second)
{
    sigset_t set;
    sigemptyset(&set);
    sigaddset(&set, first);
    if (second)
        sigaddset(&set, second);
    return set;
}

static void caught(int number)
{
    sigset_t now;
    pthread_sigmask(SIG_BLOCK, NULL, &now);
    printf("caught %d, blocked %d %d\n", number, sigismember(&now, SIGUSR1), sigismember(&now, SIGUSR2));
}

static void print_info(int number, siginfo_t *info, void *context)
{
    (void)context;
    printf("told %d %d of %d by this process %d: %d\n", number, info->si_signo, info->si_code,
           info->si_pid == getpid(), info->si_code == SI_QUEUE ? info->si_value.sival_int : 0);
}

static void jumps(int number)
{
    siglongjmp(back, number);
}

static void again(int number)
{
    static int depth;
    printf("depth %d\n", ++depth);
    if (depth < 3)
        raise(number);
    depth--;
}

static void set_action(int number, void (*handler)(int), int flags, sigset_t mask)
{
    struct sigaction action;
    memset(&action, 0, sizeof action);
    action.sa_handler = handler;
    action.sa_flags = flags;
    action.sa_mask = mask;
    sigaction(number, &action, NULL);
}

static void handlers(void)
{
    sigset_t none, both = set_of(SIGUSR1, SIGUSR2);
    sigemptyset(&none);
    printf("before: %d\n", signal(SIGUSR1, caught) == SIG_DFL);
    printf("then: %d\n", signal(SIGUSR1, caught) == caught);
    report("raise", raise(SIGUSR1));
    report("kill", kill(getpid(), SIGUSR1));
    report("of this thread", pthread_kill(pthread_self(), SIGUSR1));
    set_action(SIGUSR2, caught, SA_RESETHAND, set_of(SIGUSR1, 0));
    raise(SIGUSR2);
    struct sigaction now;
    sigaction(SIGUSR2, NULL, &now);
    printf("reset: %d\n", now.sa_handler == SIG_DFL);
    set_action(SIGUSR2, again, SA_NODEFER, none);
    raise(SIGUSR2);
    set_action(SIGUSR2, caught, 0, both);
    set_action(SIGUSR1, caught, 0, none);
    sigprocmask(SIG_BLOCK, &both, NULL);
    raise(SIGUSR1), raise(SIGUSR1), raise(SIGUSR2);
    sigset_t waiting;
    sigpending(&waiting);
    printf("wait: %d %d %d\n", sigismember(&waiting, SIGUSR1), sigismember(&waiting, SIGUSR2),
           sigismember(&waiting, SIGTERM));
    puts("both");
    sigprocmask(SIG_UNBLOCK, &both, NULL);
    set_action(SIGUSR1, caught, 0, both);
    sigprocmask(SIG_BLOCK, &both, NULL);
    raise(SIGUSR2), raise(SIGUSR1);
    puts("one after the other");
    sigprocmask(SIG_SETMASK, &none, NULL);
    sigpending(&waiting);
    printf("wait: %d\n", sigismember(&waiting, SIGUSR1));
    raise(SIGCHLD), raise(SIGWINCH), raise(SIGCONT);
    puts("these nobody notices");
}

static void values(void)
{
    sigset_t set = set_of(SIGRTMIN, SIGRTMIN + 1);
    struct sigaction action = { .sa_flags = SA_SIGINFO };
    action.sa_sigaction = print_info;
    sigemptyset(&action.sa_mask);
    sigaction(SIGRTMIN, &action, NULL);
    sigaction(SIGRTMIN + 1, &action, NULL);
    sigaction(SIGTERM, &action, NULL);
    raise(SIGTERM);
    kill(getpid(), SIGTERM);
    sigprocmask(SIG_BLOCK, &set, NULL);
    for (int k = 0; k < 3; k++) {
        sigqueue(getpid(), SIGRTMIN + 1, (union sigval) { .sival_int = 10 + k });
        sigqueue(getpid(), SIGRTMIN, (union sigval) { .sival_int = k });
    }
    siginfo_t info;
    report("waited", sigwaitinfo(&set, &info) - SIGRTMIN);
    printf("with %d by %d\n", info.si_value.sival_int, info.si_code);
    int number;
    report("waited", sigwait(&set, &number));
    printf("for %d\n", number - SIGRTMIN);
    sigprocmask(SIG_UNBLOCK, &set, NULL);
    set = set_of(SIGTERM, 0);
    sigprocmask(SIG_BLOCK, &set, NULL);
    raise(SIGTERM);
    report("waited", sigwaitinfo(&set, &info));
    printf("by %d\n", info.si_code);
    raise(SIGTERM);
    signal(SIGTERM, SIG_IGN);
    sigpending(&set);
    printf("ignored, so gone: %d\n", sigismember(&set, SIGTERM));
    signal(SIGTERM, caught);
    set = set_of(SIGTERM, 0);
    sigprocmask(SIG_UNBLOCK, &set, NULL);
}

static void jump(void)
{
    sigset_t now;
    set_action(SIGUSR1, jumps, 0, set_of(SIGUSR2, 0));
    int number = sigsetjmp(back, 1);
    if (number == 0)
        raise(SIGUSR1);
    sigprocmask(SIG_BLOCK, NULL, &now);
    printf("jumped with %d, blocked %d %d\n", number, sigismember(&now, SIGUSR1), sigismember(&now, SIGUSR2));
    set_action(SIGUSR1, caught, 0, set_of(SIGTERM, 0));
    now = set_of(SIGUSR1, 0);
    sigprocmask(SIG_BLOCK, &now, NULL);
    raise(SIGUSR1);
    sigemptyset(&now);
    report("suspended", sigsuspend(&now));
    raise(SIGUSR1);
    report("unblocked", sigrelse(SIGUSR1));
    report("blocked", sighold(SIGUSR2));
    printf("held: %d\n", sigset(SIGUSR2, caught) == SIG_HOLD);
    report("unnoticed", sigignore(SIGUSR2));
    report("raise", raise(SIGUSR2));
    printf("held now: %d\n", sigset(SIGUSR2, SIG_HOLD) == SIG_IGN);
}

static void errors(void)
{
    struct sigaction action = { .sa_handler = SIG_IGN };
    sigset_t set;
    sigemptyset(&set);
    report("none", raise(0));
    report("such a signal", raise(65));
    report("of the process", kill(getpid(), -1));
    report("of the process, none", kill(getpid(), 0));
    report("of another process", kill(99999999, SIGTERM));
    report("catch SIGKILL", sigaction(SIGKILL, &action, NULL));
    report("ask for SIGKILL", sigaction(SIGKILL, NULL, &action));
    report("catch 65", sigaction(65, NULL, &action));
    report("ignore SIGSTOP", signal(SIGSTOP, SIG_IGN) == SIG_ERR ? -1 : 0);
    report("add 0", sigaddset(&set, 0));
    report("add 65", sigaddset(&set, 65));
    report("add 64", sigaddset(&set, 64));
    report("has 64", sigismember(&set, 64));
    report("delete 64", sigdelset(&set, 64));
    report("has 64", sigismember(&set, 64));
    report("mask", sigprocmask(7, &set, NULL));
    report("mask of a thread", pthread_sigmask(7, &set, NULL) == EINVAL);
    sigfillset(&set);
    sigprocmask(SIG_SETMASK, &set, NULL);
    sigprocmask(SIG_SETMASK, NULL, &set);
    printf("can't be blocked: %d %d\n", sigismember(&set, SIGKILL), sigismember(&set, SIGSTOP));
    sigemptyset(&set);
    sigprocmask(SIG_SETMASK, &set, NULL);
    printf("%s, %s, %s\n", strsignal(SIGINT), strsignal(SIGUSR1), strsignal(SIGRTMIN + 2));
}

static void *waits(void *argument)
{
    sigset_t set = set_of(SIGUSR1, SIGUSR2), now;
    (void)argument;
    pthread_sigmask(SIG_BLOCK, NULL, &now);
    printf("a thread begins with its creator's: %d %d\n", sigismember(&now, SIGUSR1), sigismember(&now, SIGTERM));
    for (int number = 0; number != SIGUSR2;) {
        sigwait(&set, &number);
        printf("the thread has %d\n", number);
    }
    return NULL;
}

static void threads(void)
{
    sigset_t set = set_of(SIGUSR1, SIGUSR2);
    pthread_t thread;
    sigprocmask(SIG_BLOCK, &set, NULL);
    pthread_create(&thread, NULL, waits, NULL);
    pthread_kill(thread, SIGUSR1);
    kill(getpid(), SIGUSR2);
    pthread_join(thread, NULL);
    sigprocmask(SIG_UNBLOCK, &set, NULL);
}

static void aborted(int number)
{
    printf("aborted %d\n", number);
    exit(7);
}

int main(void)
{
    handlers();
    values();
    jump();
    errors();
    threads();
    signal(SIGABRT, aborted);
    abort();
}
