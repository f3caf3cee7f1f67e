/* A race: two threads make a deposit. A thread reads under the lock and stores under the lock, but it releases the lock
   in between. */
#include <pthread.h>
#include <stdio.h>

static pthread_mutex_t lock = PTHREAD_MUTEX_INITIALIZER, paper = PTHREAD_MUTEX_INITIALIZER;
static int money = 100, slips;

static int read_money(void)
{
    pthread_mutex_lock(&lock);
    int found = money;
    pthread_mutex_unlock(&lock);
    return found;
}

static void store_money(int new)
{
    pthread_mutex_lock(&lock);
    money = new;
    pthread_mutex_unlock(&lock);
}

static void *cash(void *nothing)
{
    store_money(read_money() + 20);
    return nothing;
}

static void *cheque(void *nothing)
{
    pthread_mutex_lock(&paper);
    slips++;
    pthread_mutex_unlock(&paper);
    store_money(read_money() + 50);
    return nothing;
}

int main(void)
{
    pthread_t threads[2];
    pthread_create(&threads[0], NULL, cash, NULL);
    pthread_create(&threads[1], NULL, cheque, NULL);
    pthread_join(threads[0], NULL);
    pthread_join(threads[1], NULL);
    printf("%d\n", money);
    return 0;
}
