/* Three threads read lines of stdin, and one reads bytes, with no order but stdio's own: each byte is read once. */
#include <pthread.h>
#include <stdio.h>
#include <string.h>

static pthread_mutex_t mutex = PTHREAD_MUTEX_INITIALIZER;
static unsigned bytes, sum;

static void *lines(void *unused)
{
    char line[64];
    unsigned mine = 0, add = 0;
    while (fgets(line, sizeof line, stdin))
        for (char *at = line; *at; at++) {
            mine++;
            add += (unsigned char)*at;
        }
    pthread_mutex_lock(&mutex);
    bytes += mine;
    sum += add;
    pthread_mutex_unlock(&mutex);
    return unused;
}

static void *one_by_one(void *unused)
{
    unsigned mine = 0, add = 0;
    for (int byte; (byte = getchar()) != EOF; mine++)
        add += (unsigned)byte;
    pthread_mutex_lock(&mutex);
    bytes += mine;
    sum += add;
    pthread_mutex_unlock(&mutex);
    return unused;
}

int main(void)
{
    pthread_t thread[4];
    for (int k = 0; k < 4; k++)
        pthread_create(&thread[k], NULL, k == 3 ? one_by_one : lines, NULL);
    for (int k = 0; k < 4; k++)
        pthread_join(thread[k], NULL);
    printf("%u bytes, sum %u\n", bytes, sum);
    return 0;
}
