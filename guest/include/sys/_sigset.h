/* The C library's set has 32 signals; this one has 64, as on Linux. */
#ifndef _SYS__SIGSET_H_
#define _SYS__SIGSET_H_

typedef unsigned long long __sigset_t;

#endif
