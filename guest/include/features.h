/* The C library has this header as sys/features.h. */
#include <sys/features.h>
