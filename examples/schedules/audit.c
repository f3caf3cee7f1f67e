/* A deadlock: a thread moves money from account 0 to account 1, and another adds up both. Each locks both accounts, but
   the first locks account 0 first, and the other account 1. */
#include <pthread.h>
#include <stdio.h>

static struct { pthread_mutex_t lock; int money; } accounts[2] = {
    { PTHREAD_MUTEX_INITIALIZER, 100 }, { PTHREAD_MUTEX_INITIALIZER, 100 }
};
static pthread_mutex_t paper = PTHREAD_MUTEX_INITIALIZER;
static char first_line[40];

static void *transfer(void *nothing)
{
    pthread_mutex_lock(&accounts[0].lock);
    pthread_mutex_lock(&accounts[1].lock);
    accounts[0].money -= 30;
    accounts[1].money += 30;
    pthread_mutex_unlock(&accounts[1].lock);
    pthread_mutex_unlock(&accounts[0].lock);
    return nothing;
}

static void *audit(void *nothing)
{
    pthread_mutex_lock(&paper);
    snprintf(first_line, sizeof first_line, "audit of two accounts");
    pthread_mutex_unlock(&paper);
    pthread_mutex_lock(&accounts[1].lock);
    pthread_mutex_lock(&accounts[0].lock);
    printf("%s: %d\n", first_line, accounts[0].money + accounts[1].money);
    pthread_mutex_unlock(&accounts[0].lock);
    pthread_mutex_unlock(&accounts[1].lock);
    return nothing;
}

int main(void)
{
    pthread_t threads[2];
    pthread_create(&threads[0], NULL, transfer, NULL);
    pthread_create(&threads[1], NULL, audit, NULL);
    pthread_join(threads[0], NULL);
    pthread_join(threads[1], NULL);
    return 0;
}
