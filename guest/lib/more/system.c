/* Queries to the system: limits, user and process ids, a stream's descriptor, and the state of malloc. */
#include <errno.h>
#include <limits.h>
#include <malloc.h>
#include <pthread.h>
#include <semaphore.h>
#include <signal.h>
#include <stdio.h>
#include <string.h>
#include <sys/utsname.h>
#include <unistd.h>
#include "../library.h"

enum { PROCESS = IT_PROCESS, PARENT = 0, USER = 1000, PAGES = 1024, POSIX = 200809, NO_LIMIT = -1 };

IT_REPLACEABLE int fileno(FILE *stream)
{
    if (stream == stdin)
        return STDIN_FILENO;
    if (stream == stdout)
        return STDOUT_FILENO;
    if (stream == stderr)
        return STDERR_FILENO;
    errno = EBADF;
    return -1;
}

IT_REPLACEABLE void malloc_stats(void)
{
    struct mallinfo info = mallinfo();
    fprintf(stderr, "system bytes     = %10u\nin use bytes     = %10u\n", info.arena, info.uordblks);
}

/* -1 without an error means that there is no limit, or no such feature. */
IT_REPLACEABLE long sysconf(int name)
{
    switch (name) {
    case _SC_PAGESIZE:
        return IT_PAGE;
    case _SC_NPROCESSORS_CONF:
    case _SC_NPROCESSORS_ONLN:
        return IT_PROCESSORS;
    case _SC_PHYS_PAGES:
    case _SC_AVPHYS_PAGES:
        return PAGES;
    case _SC_THREADS:
    case _SC_SEMAPHORES:
    case _SC_BARRIERS:
    case _SC_SPIN_LOCKS:
    case _SC_READER_WRITER_LOCKS:
    case _SC_THREAD_SAFE_FUNCTIONS:
    case _SC_THREAD_PROCESS_SHARED:
    case _SC_THREAD_ATTR_STACKSIZE:
    case _SC_THREAD_ATTR_STACKADDR:
    case _SC_THREAD_PRIORITY_SCHEDULING:
    case _SC_THREAD_PRIO_INHERIT:
    case _SC_PRIORITY_SCHEDULING:
    case _SC_REALTIME_SIGNALS:
    case _SC_VERSION:
        return POSIX;
    case _SC_THREAD_THREADS_MAX:
        return PTHREAD_THREADS_MAX;
    case _SC_THREAD_KEYS_MAX:
        return PTHREAD_KEYS_MAX;
    case _SC_THREAD_DESTRUCTOR_ITERATIONS:
        return PTHREAD_DESTRUCTOR_ITERATIONS;
    case _SC_THREAD_STACK_MIN:
        return PTHREAD_STACK_MIN;
    case _SC_SEM_NSEMS_MAX:
        return IT_PROGRAM_OBJECTS;
    case _SC_SEM_VALUE_MAX:
        return SEM_VALUE_MAX;
    case _SC_SIGQUEUE_MAX:
        return 128;
    case _SC_RTSIG_MAX:
        return SIGRTMAX - SIGRTMIN + 1;
    case _SC_OPEN_MAX:
    case _SC_STREAM_MAX:
        return STDERR_FILENO + 1;
    case _SC_ATEXIT_MAX:
        return 64;
    case _SC_CHILD_MAX:
    case _SC_NGROUPS_MAX:
        return 0;
    case _SC_CLK_TCK:
        return 100;
    case _SC_LINE_MAX:
        return 2048;
    case _SC_HOST_NAME_MAX:
        return 64;
    default:
        if (name < _SC_ARG_MAX || name > _SC_LEVEL4_CACHE_LINESIZE)
            errno = EINVAL;
        return NO_LIMIT;
    }
}

/* ---------------------------------------------------------------------------------------------- who it is ---- */

IT_RETURNS(pid_t, getpid, (void), PROCESS)
IT_RETURNS(pid_t, getppid, (void), PARENT)
IT_RETURNS(pid_t, getpgrp, (void), PROCESS)

static pid_t own_process(pid_t process)
{
    if (process == 0 || process == PROCESS)
        return PROCESS;
    errno = ESRCH;
    return -1;
}

IT_RETURNS(pid_t, getpgid, (pid_t process), own_process(process))
IT_RETURNS(pid_t, getsid, (pid_t process), own_process(process))
IT_RETURNS(uid_t, getuid, (void), USER)
IT_RETURNS(uid_t, geteuid, (void), USER)
IT_RETURNS(gid_t, getgid, (void), USER)
IT_RETURNS(gid_t, getegid, (void), USER)

/* Succeeds if nothing changes. In a call with two ids, -1 (`unchanged`) keeps the current one. */
static int keep_ids(unsigned real, unsigned effective, unsigned unchanged)
{
    if ((real == USER || real == unchanged) && (effective == USER || effective == unchanged))
        return 0;
    errno = EPERM;
    return -1;
}

IT_RETURNS(int, setuid, (uid_t user), keep_ids(user, USER, USER))
IT_RETURNS(int, seteuid, (uid_t user), keep_ids(user, USER, USER))
IT_RETURNS(int, setgid, (gid_t group), keep_ids(group, USER, USER))
IT_RETURNS(int, setegid, (gid_t group), keep_ids(group, USER, USER))
IT_RETURNS(int, setreuid, (uid_t real, uid_t effective), keep_ids(real, effective, (uid_t)-1))
IT_RETURNS(int, setregid, (gid_t real, gid_t effective), keep_ids(real, effective, (gid_t)-1))

IT_REPLACEABLE int gethostname(char *name, size_t size)
{
    static const char own[] = "guest";
    if (size < sizeof own) {
        errno = ENAMETOOLONG;
        return -1;
    }
    memcpy(name, own, sizeof own);
    return 0;
}

IT_REPLACEABLE int uname(struct utsname *name)
{
    *name = (struct utsname) { "ithreads", "guest", "1", "1", "riscv32" };
    return 0;
}

IT_RETURNS(int, getdtablesize, (void), (int)sysconf(_SC_OPEN_MAX))
