/* As on Linux, the same as signal.h. */
#include <signal.h>
