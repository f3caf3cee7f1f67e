/* A sleep that a signal handler ends, and one that it doesn't. */
#define _GNU_SOURCE
#include <errno.h>
#include <pthread.h>
#include <signal.h>
#include <stdio.h>
#include <threads.h>
#include <time.h>
#include <unistd.h>

static volatile sig_atomic_t caught;

static void catches(int number)
{
    caught = number;
}

static void *sleeps(void *unused)
{
    struct timespec length = { 1000, 0 }, rest = { 0, 0 };
    int result = nanosleep(&length, &rest), error = errno;
    printf("%d %d, caught %d, rest %d\n", result, error == EINTR, caught == SIGUSR1, rest.tv_sec > 0);
    return unused;
}

static void *sleeps_on(void *unused)
{
    sigset_t set;
    sigemptyset(&set);
    sigaddset(&set, SIGUSR1);
    pthread_sigmask(SIG_BLOCK, &set, NULL);
    struct timespec length = { 0, 300000000 };
    int result = nanosleep(&length, NULL);
    printf("%d, caught %d\n", result, caught != 0);
    pthread_sigmask(SIG_UNBLOCK, &set, NULL);
    printf("caught %d\n", caught == SIGUSR1);
    return unused;
}

static void *sleeps_by_c11(void *unused)
{
    struct timespec length = { 1000, 0 }, none = { 0, 1000000000 }, rest = { 0, 0 };
    int result = thrd_sleep(&length, &rest);
    printf("%d, caught %d, rest %d\n", result, caught == SIGUSR1, rest.tv_sec > 0);
    printf("no time: %d\n", thrd_sleep(&none, NULL) < -1);
    return unused;
}

static void signalled(void *(*function)(void *))
{
    pthread_t thread;
    caught = 0;
    pthread_create(&thread, NULL, function, NULL);
    usleep(100000);
    pthread_kill(thread, SIGUSR1);
    pthread_join(thread, NULL);
}

int main(void)
{
    struct sigaction action = { .sa_handler = catches };
    sigemptyset(&action.sa_mask);
    sigaction(SIGUSR1, &action, NULL);
    signalled(sleeps);
    signalled(sleeps_on);
    signalled(sleeps_by_c11);
    return 0;
}
