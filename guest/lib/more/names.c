/* The program's name, in the variables of glibc and BSD. */
#include <errno.h>
#include "../library.h"

extern char *it_words[];

IT_REPLACEABLE char *program_invocation_name, *program_invocation_short_name, *__progname, *__progname_full;

static __attribute__((constructor)) void set_names(void)
{
    program_invocation_name = program_invocation_short_name = __progname = __progname_full = it_words[1];
}
