/* A signal that isn't caught ends the guest. */
#include <signal.h>
#include <stdio.h>

int main(void)
{
    signal(SIGTERM, SIG_IGN);
    raise(SIGTERM);
    printf("before");
    signal(SIGTERM, SIG_DFL);
    raise(SIGTERM);
    printf("never");
    return 0;
}
