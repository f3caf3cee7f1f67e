/* The one user, whose number guest/lib/more/system.c says, and the one group. */
#include <grp.h>
#include <pwd.h>
#include <string.h>
#include <unistd.h>
#include "../library.h"

static char name[] = "user", empty[] = "", home[] = "/", shell[] = "/bin/sh", *members[] = { NULL };

IT_REPLACEABLE struct passwd *getpwuid(uid_t user)
{
    static struct passwd entry;
    if (user != getuid())
        return NULL;
    entry = (struct passwd) { .pw_name = name, .pw_passwd = empty, .pw_uid = user, .pw_gid = getgid(),
                              .pw_gecos = empty, .pw_dir = home, .pw_shell = shell };
    return &entry;
}

IT_REPLACEABLE struct passwd *getpwnam(const char *wanted)
{
    return strcmp(wanted, name) == 0 ? getpwuid(getuid()) : NULL;
}

IT_REPLACEABLE struct group *getgrgid(gid_t group)
{
    static struct group entry;
    if (group != getgid())
        return NULL;
    entry = (struct group) { .gr_name = name, .gr_passwd = empty, .gr_gid = group, .gr_mem = members };
    return &entry;
}

IT_REPLACEABLE struct group *getgrnam(const char *wanted)
{
    return strcmp(wanted, name) == 0 ? getgrgid(getgid()) : NULL;
}

IT_REPLACEABLE char *getlogin(void)
{
    return name;
}

/* ---------------------------------------------------------------------------------------------- the list of all ---- */

/* A list of one. */
#define LIST(returned, get, set, end, type, one)                                                                       \
    static int returned;                                                                                               \
    IT_REPLACEABLE void set(void)                                                                                      \
    {                                                                                                                  \
        returned = 0;                                                                                                  \
    }                                                                                                                  \
    IT_REPLACEABLE void end(void)                                                                                      \
    {                                                                                                                  \
        returned = 0;                                                                                                  \
    }                                                                                                                  \
    IT_RETURNS(type *, get, (void), returned++ ? NULL : one)

LIST(user_returned, getpwent, setpwent, endpwent, struct passwd, getpwuid(getuid()))
LIST(group_returned, getgrent, setgrent, endgrent, struct group, getgrgid(getgid()))

/* ------------------------------------------------------------------------------------------ entries of the caller ---- */

/* The texts are constants, so that nothing is kept in the caller's memory but the entry. */
#define REENTRANT(function, type, key, lookup)                                                                         \
    IT_REPLACEABLE int function(key, type *entry, char *memory, size_t size, type **found)                             \
    {                                                                                                                  \
        (void)memory, (void)size;                                                                                      \
        const type *one = lookup;                                                                                      \
        if (one)                                                                                                       \
            *entry = *one;                                                                                             \
        *found = one ? entry : NULL;                                                                                   \
        return 0;                                                                                                      \
    }

REENTRANT(getpwuid_r, struct passwd, uid_t wanted, getpwuid(wanted))
REENTRANT(getpwnam_r, struct passwd, const char *wanted, getpwnam(wanted))
REENTRANT(getgrgid_r, struct group, gid_t wanted, getgrgid(wanted))
REENTRANT(getgrnam_r, struct group, const char *wanted, getgrnam(wanted))
