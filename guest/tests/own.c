/* Thread-local data: with initial values, aligned to pages and less, and of more than a page; each thread has its
   own. */
#include <pthread.h>
#include <stdint.h>
#include <stdio.h>

static _Thread_local int begun = 42;
static _Thread_local char text[] = "begun";
static _Alignas(64) _Thread_local int line;
static _Alignas(4096) _Thread_local unsigned char page[4096];
static _Thread_local int large[3000];

static int check(int me)
{
    int right = begun == 42 && text[0] == 'b' && line == 0 && page[4095] == 0 && large[2999] == 0;
    right &= (uintptr_t)&line % 64 == 0 && (uintptr_t)page % 4096 == 0;
    begun += me;
    text[0] = (char)('0' + me);
    line = large[2999] = me;
    page[4095] = (unsigned char)me;
    return right;
}

static void *work(void *argument)
{
    int me = (int)(uintptr_t)argument;
    int right = check(me);
    printf("thread %d: %d %d %s %d %d %d\n", me, right, begun, text, line, page[4095], large[2999]);
    return NULL;
}

int main(void)
{
    printf("main: %d\n", check(9));
    for (uintptr_t k = 1; k < 4; k++) {
        pthread_t thread;
        pthread_create(&thread, NULL, work, (void *)k);
        pthread_join(thread, NULL);
    }
    printf("main: %d %s %d %d %d\n", begun, text, line, page[4095], large[2999]);
    return 0;
}
