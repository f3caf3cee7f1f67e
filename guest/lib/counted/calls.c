/* The number of calls that a thread has made, if `guest/build --time counted` counts them. */
#include "counted.h"

_Thread_local unsigned it_calls;
