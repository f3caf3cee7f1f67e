/* The C library's sched.h, and what it omits of POSIX.1-2017 <sched.h>. Policies and priorities are kept, so that they
   can be read back, and have no effect. */
#include_next <sched.h>
#ifndef IT_SCHED_H
#define IT_SCHED_H

#ifdef __cplusplus
extern "C" {
#endif

/* SCHED_OTHER has the priority 0, SCHED_FIFO and SCHED_RR have 1 to 99. EINVAL if there is no such policy. */
int sched_get_priority_min(int policy);
int sched_get_priority_max(int policy);

/* ESRCH unless the process is 0 or getpid(). EINVAL if the policy has no such priority. */
int sched_setscheduler(pid_t process, int policy, const struct sched_param *parameters);
int sched_getscheduler(pid_t process);
int sched_setparam(pid_t process, const struct sched_param *parameters);
int sched_getparam(pid_t process, struct sched_param *parameters);

#if __GNU_VISIBLE

/* Linux's sets of processors. There are 4 here, and a set has no effect but is kept. EINVAL if none of the four is in
   the set, or if the size is too small. */
#define CPU_SETSIZE 1024
typedef struct { unsigned bits[CPU_SETSIZE / 32]; } cpu_set_t;
#define CPU_ZERO(set) ((void)(*(set) = (cpu_set_t){ { 0 } }))
#define CPU_SET(cpu, set) ((void)((set)->bits[(unsigned)(cpu) / 32 % 32] |= 1u << (unsigned)(cpu) % 32))
#define CPU_CLR(cpu, set) ((void)((set)->bits[(unsigned)(cpu) / 32 % 32] &= ~(1u << (unsigned)(cpu) % 32)))
#define CPU_ISSET(cpu, set) ((int)((set)->bits[(unsigned)(cpu) / 32 % 32] >> (unsigned)(cpu) % 32 & 1))
#define CPU_COUNT(set) it_cpu_count(set)
#define CPU_EQUAL(one, other) (!__builtin_memcmp((one), (other), sizeof(cpu_set_t)))
int it_cpu_count(const cpu_set_t *set);
int sched_setaffinity(pid_t process, size_t size, const cpu_set_t *set);
int sched_getaffinity(pid_t process, size_t size, cpu_set_t *set);

#endif

#ifdef __cplusplus
}
#endif

#endif
