/* Each result of pthread.h and semaphore.h that POSIX defines and Linux gives too, printed by its name. */
#include <errno.h>
#include <limits.h>
#include <pthread.h>
#include <semaphore.h>
#include <stdio.h>

static pthread_mutex_t mutex;
static pthread_barrier_t barrier;
static pthread_once_t once = PTHREAD_ONCE_INIT;
static pthread_key_t key;
static int serial, calls;

static const char *name(int result)
{
    static const struct { int number; const char *name; } names[] = {
        { 0, "0" }, { EPERM, "EPERM" }, { ESRCH, "ESRCH" }, { EAGAIN, "EAGAIN" }, { EBUSY, "EBUSY" },
        { EINVAL, "EINVAL" }, { EDEADLK, "EDEADLK" }, { EOVERFLOW, "EOVERFLOW" }, { ENOTSUP, "ENOTSUP" }
    };
    for (unsigned k = 0; k < sizeof names / sizeof names[0]; k++)
        if (names[k].number == result)
            return names[k].name;
    return "another";
}

static void report(const char *what, int result)
{
    printf("%s: %s\n", what, name(result));
}

/* for semaphore.h */
static void report_errno(const char *what, int result)
{
    report(what, result == 0 ? 0 : errno);
}

static void *foreign(void *unused)
{
    (void)unused;
    report("lock that another has, tried", pthread_mutex_trylock(&mutex));
    report("unlock of another's", pthread_mutex_unlock(&mutex));
    return &mutex;
}

static void *meet(void *unused)
{
    int result = pthread_barrier_wait(&barrier);
    (void)unused;
    pthread_mutex_lock(&mutex);
    serial += result == PTHREAD_BARRIER_SERIAL_THREAD;
    calls += result == 0;
    pthread_mutex_unlock(&mutex);
    return NULL;
}

static void mutexes(void)
{
    pthread_mutexattr_t attributes;
    pthread_t thread;
    void *value;
    int type = -1;
    report("attributes", pthread_mutexattr_init(&attributes));
    report("a type that isn't there", pthread_mutexattr_settype(&attributes, 77));
    report("error checking", pthread_mutexattr_settype(&attributes, PTHREAD_MUTEX_ERRORCHECK));
    pthread_mutexattr_gettype(&attributes, &type);
    printf("it is so: %d\n", type == PTHREAD_MUTEX_ERRORCHECK);
    report("private", pthread_mutexattr_setpshared(&attributes, PTHREAD_PROCESS_PRIVATE));
    report("shared as nobody knows", pthread_mutexattr_setpshared(&attributes, 77));
    report("a protocol that isn't there", pthread_mutexattr_setprotocol(&attributes, 77));
    report("init", pthread_mutex_init(&mutex, &attributes));
    report("attributes destroyed", pthread_mutexattr_destroy(&attributes));
    report("unlock of a free one", pthread_mutex_unlock(&mutex));
    report("lock", pthread_mutex_lock(&mutex));
    report("lock again", pthread_mutex_lock(&mutex));
    report("lock again, tried", pthread_mutex_trylock(&mutex));
    report("destroyed while locked", pthread_mutex_destroy(&mutex));
    int created = pthread_create(&thread, NULL, foreign, NULL);
    report("join", pthread_join(thread, &value));
    report("create", created);
    printf("its value came: %d\n", value == &mutex);
    report("unlock", pthread_mutex_unlock(&mutex));
}

static void threads(void)
{
    pthread_attr_t attributes;
    size_t size = 0;
    int state = -1;
    report("join of oneself", pthread_join(pthread_self(), NULL));
    printf("equal: %d\n", pthread_equal(pthread_self(), pthread_self()) != 0);
    report("attributes", pthread_attr_init(&attributes));
    report("joinable", pthread_attr_setdetachstate(&attributes, PTHREAD_CREATE_JOINABLE));
    report("a state that isn't there", pthread_attr_setdetachstate(&attributes, 77));
    pthread_attr_getdetachstate(&attributes, &state);
    printf("it is so: %d\n", state == PTHREAD_CREATE_JOINABLE);
    report("a small stack", pthread_attr_setstacksize(&attributes, 1000));
    report("a stack", pthread_attr_setstacksize(&attributes, 65536));
    pthread_attr_getstacksize(&attributes, &size);
    printf("its size: %d\n", (int)size);
    report("for the system", pthread_attr_setscope(&attributes, PTHREAD_SCOPE_SYSTEM));
    report("for the process", pthread_attr_setscope(&attributes, PTHREAD_SCOPE_PROCESS));
    report("no guard", pthread_attr_setguardsize(&attributes, 0));
    report("attributes destroyed", pthread_attr_destroy(&attributes));
}

static void barriers(void)
{
    pthread_t thread[3];
    report("barrier of none", pthread_barrier_init(&barrier, NULL, 0));
    report("barrier", pthread_barrier_init(&barrier, NULL, 4));
    for (int k = 0; k < 3; k++)
        pthread_create(&thread[k], NULL, meet, NULL);
    meet(NULL);
    for (int k = 0; k < 3; k++)
        pthread_join(thread[k], NULL);
    printf("last %d others %d\n", serial, calls);
    report("barrier destroyed", pthread_barrier_destroy(&barrier));
}

static void semaphores(void)
{
    sem_t semaphore;
    report_errno("too high a value", sem_init(&semaphore, 0, (unsigned)SEM_VALUE_MAX + 1));
    report_errno("the highest value", sem_init(&semaphore, 0, SEM_VALUE_MAX));
    report_errno("one more", sem_post(&semaphore));
    report_errno("destroyed", sem_destroy(&semaphore));
    report_errno("a value of 1", sem_init(&semaphore, 0, 1));
    report_errno("wait", sem_wait(&semaphore));
    report_errno("wait, tried", sem_trywait(&semaphore));
    report_errno("post", sem_post(&semaphore));
    report_errno("wait, tried", sem_trywait(&semaphore));
    report_errno("destroyed", sem_destroy(&semaphore));
}

static void count(void)
{
    calls++;
}

static void others(void)
{
    pthread_cond_t condition = PTHREAD_COND_INITIALIZER;
    report("signal to nobody", pthread_cond_signal(&condition));
    report("broadcast to nobody", pthread_cond_broadcast(&condition));
    report("condition destroyed", pthread_cond_destroy(&condition));
    report("condition", pthread_cond_init(&condition, NULL));
    report("condition destroyed", pthread_cond_destroy(&condition));
    calls = 0;
    report("once", pthread_once(&once, count));
    report("once more", pthread_once(&once, count));
    once = PTHREAD_ONCE_INIT;
    report("once anew", pthread_once(&once, count));
    printf("calls %d\n", calls);
    report("key", pthread_key_create(&key, NULL));
    printf("at first null: %d\n", pthread_getspecific(key) == NULL);
    report("set", pthread_setspecific(key, &key));
    printf("its value: %d\n", pthread_getspecific(key) == &key);
    report("key deleted", pthread_key_delete(key));
    report("key deleted again", pthread_key_delete(key));
    report("set then", pthread_setspecific(key, &key));
}

int main(void)
{
    mutexes();
    threads();
    barriers();
    semaphores();
    others();
    report("mutex destroyed", pthread_mutex_destroy(&mutex));
    return 0;
}
