/* Named semaphores, and the values of semaphores. */
#include <errno.h>
#include <fcntl.h>
#include <limits.h>
#include <pthread.h>
#include <semaphore.h>
#include <stdio.h>

#define NAME "/ithreads.guest.test"

static sem_t plain, *named;
static int sum;

static const char *why(void)
{
    return errno == ENOENT ? "ENOENT" : errno == EEXIST ? "EEXIST" : errno == EINVAL ? "EINVAL"
           : errno == EAGAIN ? "EAGAIN" : errno == EOVERFLOW ? "EOVERFLOW" : errno == ENAMETOOLONG ? "ENAMETOOLONG"
           : "another";
}

static void report(const char *what, int right)
{
    printf("%s: %s\n", what, right ? "0" : why());
}

static int value_of(sem_t *semaphore)
{
    int value = -77;
    return sem_getvalue(semaphore, &value) == 0 ? value : -1;
}

static void *adds(void *unused)
{
    sem_t *mine = sem_open(NAME, 0);
    for (int k = 0; k < 10; k++) {
        sem_wait(mine);
        sum++;
        sem_post(mine);
    }
    sem_close(mine);
    return unused;
}

static void *waits(void *unused)
{
    sem_wait(&plain);
    sem_post(&plain);
    return unused;
}

int main(void)
{
    pthread_t threads[3];
    sem_t *other;
    sem_unlink(NAME);
    report("one that isn't there", sem_open(NAME, 0) != SEM_FAILED);
    report("no name", sem_open("/", O_CREAT, 0600, 1) != SEM_FAILED);
    report("too high a value", sem_open(NAME, O_CREAT, 0600, (unsigned)SEM_VALUE_MAX + 1) != SEM_FAILED);
    named = sem_open(NAME, O_CREAT | O_EXCL, 0600, 2);
    report("made", named != SEM_FAILED);
    report("made again", sem_open(NAME, O_CREAT | O_EXCL, 0600, 2) != SEM_FAILED);
    other = sem_open(NAME, O_CREAT, 0600, 9);
    printf("it is the same: %d\n", other == named);
    report("closed", sem_close(other) == 0);
    printf("value %d\n", value_of(named));
    report("wait", sem_wait(named) == 0);
    printf("value %d\n", value_of(named));
    for (int k = 0; k < 3; k++)
        pthread_create(&threads[k], NULL, adds, NULL);
    for (int k = 0; k < 3; k++)
        pthread_join(threads[k], NULL);
    printf("sum %d, value %d\n", sum, value_of(named));
    report("unlinked", sem_unlink(NAME) == 0);
    report("unlinked again", sem_unlink(NAME) == 0);
    report("opened then", sem_open(NAME, 0) != SEM_FAILED);
    report("it goes on", sem_wait(named) == 0);
    report("tried", sem_trywait(named) == 0);
    report("post", sem_post(named) == 0);
    report("closed", sem_close(named) == 0);
    report("a semaphore", sem_init(&plain, 0, 0) == 0);
    for (int k = 0; k < 2; k++)
        pthread_create(&threads[k], NULL, waits, NULL);
    printf("value %d\n", value_of(&plain));
    sem_post(&plain);
    for (int k = 0; k < 2; k++)
        pthread_join(threads[k], NULL);
    printf("value %d\n", value_of(&plain));
    report("destroyed", sem_destroy(&plain) == 0);
    report("the highest value", sem_init(&plain, 0, SEM_VALUE_MAX) == 0);
    report("one more", sem_post(&plain) == 0);
    printf("it is the highest: %d\n", value_of(&plain) == SEM_VALUE_MAX);
    report("destroyed", sem_destroy(&plain) == 0);
    return 0;
}
