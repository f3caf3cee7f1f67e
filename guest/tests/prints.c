/* Four threads print at once, lines of all lengths: no line is torn, lost or printed twice. Their order isn't
   specified. */
#include <pthread.h>
#include <stdint.h>
#include <stdio.h>
#include <string.h>

static void *print(void *argument)
{
    unsigned me = (unsigned)(uintptr_t)argument;
    char text[400];
    for (unsigned k = 0; k < 150; k++) {
        unsigned length = (k * 37 + me * 11) % 390;
        memset(text, (int)('a' + me), length);
        text[length] = 0;
        if (k % 3 == 0)
            printf("%u %u %s\n", me, k, text);
        else if (k % 3 == 1)
            puts(text);
        else
            fprintf(stdout, "%s %u.%u\n", text, k, me);
    }
    return NULL;
}

int main(void)
{
    pthread_t thread[4];
    for (uintptr_t k = 0; k < 4; k++)
        pthread_create(&thread[k], NULL, print, (void *)k);
    for (int k = 0; k < 4; k++)
        pthread_join(thread[k], NULL);
    return 0;
}
