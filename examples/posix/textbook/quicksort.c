/* Parallel quicksort, as in a textbook, without regard to reuse: reads whole numbers, sorts them with threads down to a
   certain depth of the recursion, checks that they are sorted, and prints them.

   cc -pthread -O2 quicksort.c && ./a.out <quicksort.in */
#include <pthread.h>
#include <stdio.h>
#include <stdlib.h>
#include <string.h>

#define MAX_DEPTH 3
#define CUTOFF    16

struct qsort_args {
    int *array;
    int left;
    int right;
    int depth;
};

static pthread_mutex_t count_lock = PTHREAD_MUTEX_INITIALIZER;
static int threads_created;

static void swap(int *a, int *b)
{
    int t = *a;
    *a = *b;
    *b = t;
}

static void insertion_sort(int *a, int left, int right)
{
    for (int i = left + 1; i <= right; i++) {
        int v = a[i], j = i;
        while (j > left && a[j - 1] > v) {
            a[j] = a[j - 1];
            j--;
        }
        a[j] = v;
    }
}

static int partition(int *a, int left, int right)
{
    int mid = left + (right - left) / 2;
    if (a[mid] < a[left]) swap(&a[mid], &a[left]);
    if (a[right] < a[left]) swap(&a[right], &a[left]);
    if (a[right] < a[mid]) swap(&a[right], &a[mid]);
    swap(&a[mid], &a[right - 1]);
    int pivot = a[right - 1], i = left, j = right - 1;
    for (;;) {
        while (a[++i] < pivot)
            ;
        while (a[--j] > pivot)
            ;
        if (i >= j)
            break;
        swap(&a[i], &a[j]);
    }
    swap(&a[i], &a[right - 1]);
    return i;
}

static void quicksort(int *a, int left, int right)
{
    if (right - left < CUTOFF) {
        insertion_sort(a, left, right);
        return;
    }
    int p = partition(a, left, right);
    quicksort(a, left, p - 1);
    quicksort(a, p + 1, right);
}

static void *parallel_quicksort(void *arg)
{
    struct qsort_args *q = arg;
    if (q->depth <= 0 || q->right - q->left < CUTOFF) {
        quicksort(q->array, q->left, q->right);
        free(q);
        return NULL;
    }
    int p = partition(q->array, q->left, q->right);
    struct qsort_args *lo = malloc(sizeof *lo), *hi = malloc(sizeof *hi);
    if (lo == NULL || hi == NULL) {
        perror("malloc");
        exit(EXIT_FAILURE);
    }
    *lo = (struct qsort_args){ q->array, q->left, p - 1, q->depth - 1 };
    *hi = (struct qsort_args){ q->array, p + 1, q->right, q->depth - 1 };
    pthread_t tid;
    int rc = pthread_create(&tid, NULL, parallel_quicksort, lo);
    if (rc != 0) {
        fprintf(stderr, "pthread_create: %s\n", strerror(rc));
        exit(EXIT_FAILURE);
    }
    pthread_mutex_lock(&count_lock);
    threads_created++;
    pthread_mutex_unlock(&count_lock);
    parallel_quicksort(hi);
    pthread_join(tid, NULL);
    free(q);
    return NULL;
}

int main(void)
{
    int capacity = 1024, n = 0, value;
    int *array = malloc(capacity * sizeof *array);
    while (scanf("%d", &value) == 1) {
        if (n == capacity) {
            capacity *= 2;
            int *larger = realloc(array, capacity * sizeof *array);
            if (larger == NULL) {
                perror("realloc");
                return EXIT_FAILURE;
            }
            array = larger;
        }
        array[n++] = value;
    }
    struct qsort_args *q = malloc(sizeof *q);
    *q = (struct qsort_args){ array, 0, n - 1, MAX_DEPTH };
    parallel_quicksort(q);
    for (int i = 1; i < n; i++)
        if (array[i - 1] > array[i]) {
            fprintf(stderr, "not sorted at %d\n", i);
            return EXIT_FAILURE;
        }
    fprintf(stderr, "sorted %d numbers with %d threads\n", n, threads_created + 1);
    for (int i = 0; i < n; i++)
        printf("%d%c", array[i], i % 10 == 9 || i == n - 1 ? '\n' : ' ');
    free(array);
    return EXIT_SUCCESS;
}
