/* Producers and consumers with a bounded buffer, as in a textbook, without regard to reuse. The main thread reads lines
   of text. Producers put them into the buffer; consumers take them out and count letters, digits and words. The program
   makes some twelve calls for each line: more steps than a run may have by default, so it needs --steps 65536.

   cc -pthread -O2 bounded_buffer.c && ./a.out <bounded_buffer.in */
#include <ctype.h>
#include <errno.h>
#include <pthread.h>
#include <semaphore.h>
#include <stdio.h>
#include <stdlib.h>
#include <string.h>

#define BUFFER_SIZE   8
#define NUM_PRODUCERS 3
#define NUM_CONSUMERS 4
#define MAX_LINE      256

typedef struct {
    char *text;
    int line_number;
} item_t;

typedef struct {
    item_t *items;
    int size;
    int in, out;           /* where the next item is put, and where it is taken */
    sem_t mutex;
    sem_t empty;           /* free places */
    sem_t full;            /* items */
} buffer_t;

typedef struct {
    int id;
    long lines;
    long letters;
    long digits;
    long words;
} stats_t;

static buffer_t shared;
static char **lines;
static int num_lines;
static int next_line;
static pthread_mutex_t line_lock = PTHREAD_MUTEX_INITIALIZER;
static pthread_mutex_t stats_lock = PTHREAD_MUTEX_INITIALIZER;
static stats_t total;
static int longest_line = -1;

static void die(const char *what, int error)
{
    fprintf(stderr, "%s: %s\n", what, strerror(error));
    exit(1);
}

static void buffer_init(buffer_t *b, int size)
{
    b->items = calloc(size, sizeof(item_t));
    if (b->items == NULL)
        die("calloc", errno);
    b->size = size;
    b->in = b->out = 0;
    sem_init(&b->mutex, 0, 1);
    sem_init(&b->empty, 0, size);
    sem_init(&b->full, 0, 0);
}

static void buffer_destroy(buffer_t *b)
{
    free(b->items);
    sem_destroy(&b->mutex);
    sem_destroy(&b->empty);
    sem_destroy(&b->full);
}

static void put(buffer_t *b, item_t item)
{
    sem_wait(&b->empty);
    sem_wait(&b->mutex);
    b->items[b->in] = item;
    b->in = (b->in + 1) % b->size;
    sem_post(&b->mutex);
    sem_post(&b->full);
}

static item_t take(buffer_t *b)
{
    item_t item;
    sem_wait(&b->full);
    sem_wait(&b->mutex);
    item = b->items[b->out];
    b->out = (b->out + 1) % b->size;
    sem_post(&b->mutex);
    sem_post(&b->empty);
    return item;
}

static void *producer(void *arg)
{
    long *produced = arg;
    for (;;) {
        item_t item;
        pthread_mutex_lock(&line_lock);
        if (next_line >= num_lines) {
            pthread_mutex_unlock(&line_lock);
            break;
        }
        item.line_number = next_line;
        item.text = lines[next_line++];
        pthread_mutex_unlock(&line_lock);
        put(&shared, item);
        (*produced)++;
    }
    return NULL;
}

static void *consumer(void *arg)
{
    stats_t *my = arg;
    for (;;) {
        item_t item = take(&shared);
        if (item.text == NULL)
            break;
        int in_word = 0;
        for (char *p = item.text; *p; p++) {
            if (isalpha((unsigned char)*p))
                my->letters++;
            else if (isdigit((unsigned char)*p))
                my->digits++;
            if (isspace((unsigned char)*p))
                in_word = 0;
            else if (!in_word) {
                in_word = 1;
                my->words++;
            }
        }
        my->lines++;
        pthread_mutex_lock(&stats_lock);
        if (longest_line < 0 || strlen(item.text) > strlen(lines[longest_line]) ||
            (strlen(item.text) == strlen(lines[longest_line]) && item.line_number < longest_line))
            longest_line = item.line_number;
        pthread_mutex_unlock(&stats_lock);
    }
    pthread_mutex_lock(&stats_lock);
    total.lines += my->lines;
    total.letters += my->letters;
    total.digits += my->digits;
    total.words += my->words;
    pthread_mutex_unlock(&stats_lock);
    return NULL;
}

static void read_lines(void)
{
    char line[MAX_LINE];
    int capacity = 16;
    lines = malloc(capacity * sizeof(char *));
    while (fgets(line, sizeof line, stdin) != NULL) {
        line[strcspn(line, "\n")] = '\0';
        if (num_lines == capacity) {
            capacity *= 2;
            lines = realloc(lines, capacity * sizeof(char *));
        }
        if (lines == NULL || (lines[num_lines++] = strdup(line)) == NULL)
            die("malloc", ENOMEM);
    }
}

int main(void)
{
    pthread_t prod[NUM_PRODUCERS], cons[NUM_CONSUMERS];
    long produced[NUM_PRODUCERS] = {0}, sum = 0;
    stats_t stats[NUM_CONSUMERS];
    int rc;

    read_lines();
    buffer_init(&shared, BUFFER_SIZE);
    memset(stats, 0, sizeof stats);
    for (int i = 0; i < NUM_CONSUMERS; i++) {
        stats[i].id = i;
        if ((rc = pthread_create(&cons[i], NULL, consumer, &stats[i])) != 0)
            die("pthread_create", rc);
    }
    for (int i = 0; i < NUM_PRODUCERS; i++)
        if ((rc = pthread_create(&prod[i], NULL, producer, &produced[i])) != 0)
            die("pthread_create", rc);
    for (int i = 0; i < NUM_PRODUCERS; i++) {
        pthread_join(prod[i], NULL);
        sum += produced[i];
    }
    for (int i = 0; i < NUM_CONSUMERS; i++) {   /* one end mark for each consumer */
        item_t end = { NULL, -1 };
        put(&shared, end);
    }
    for (int i = 0; i < NUM_CONSUMERS; i++)
        pthread_join(cons[i], NULL);
    printf("produced %ld lines, consumed %ld\n", sum, total.lines);
    printf("letters %ld, digits %ld, words %ld\n", total.letters, total.digits, total.words);
    printf("letters per word: %.3f\n", total.words ? (double)total.letters / total.words : 0.0);
    if (longest_line >= 0)
        printf("longest line: %d (%zu bytes): %.40s\n", longest_line + 1, strlen(lines[longest_line]),
               lines[longest_line]);
    for (int i = 0; i < num_lines; i++)
        free(lines[i]);
    free(lines);
    buffer_destroy(&shared);
    return 0;
}
