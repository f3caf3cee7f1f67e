/* Text: printf and scanf of many kinds, sorting, and arithmetic for which the machine has no instructions. */
#include <errno.h>
#include <inttypes.h>
#include <math.h>
#include <stdio.h>
#include <stdlib.h>
#include <string.h>
#include <unistd.h>

static int compare(const void *one, const void *other)
{
    int a = *(const int *)one, b = *(const int *)other;
    return (a > b) - (a < b);
}

static void integers(void)
{
    printf("%d %i %u %x %X %o %c %% %s|\n", -42, 42, 42u, 0xbeefu, 0xbeefu, 511u, 'c', "text");
    printf("[%5d] [%-5d] [%05d] [%+d] [% d] [%.3d] [%8.3d] [%#x] [%#o]\n", 42, 42, 42, 42, 42, 7, 7, 255u, 8u);
    printf("[%10s] [%-10s] [%.2s] [%*d] [%-*d]\n", "ten", "ten", "ten", 6, 42, 6, 42);
    printf("%hhd %hd %lld %llu %zu %" PRIu64 " %" PRId32 "\n", (signed char)-1, (short)-2, -3000000000000LL,
           18446744073709551615ULL, (size_t)7, UINT64_MAX, INT32_MIN);
    volatile long long a = 123456789012345LL, b = -98765;
    volatile unsigned c = 4000000000u, d = 7;
    printf("%lld %lld %lld %u %u %u\n", a * b, a / b, a % b, c * d, c / d, c % d);
}

static void doubles(void)
{
    volatile double x = 2, y = -0.1;
    printf("%f %.0f %.3f %10.2f %-10.2f| %e %.2E %g %g %g\n", y, 2.5, 3.14159, 3.14159, 3.14159, 12345.678, 12345.678,
           1e-5, 1e20, 0.0001);
    printf("%.15g %.10f %f %f\n", x / 3, sqrt(x), floor(y), fabs(y));
    printf("%f %f %f\n", strtod("1.5e3", NULL), atof("-2.25"), (double)(float)0.1f);
    printf("%d %d %d\n", (int)(x * 1e6), (int)y, x > y);
}

static void texts(void)
{
    static const char *volatile long_text = "longer than ten";
    char text[100], word[20];
    int number, count;
    unsigned hexadecimal;
    double real;
    int length = snprintf(text, 10, "%s", long_text);
    printf("%d %s\n", length, text);
    count = sscanf("12 abc ff 2.5", "%d %19s %x %lf", &number, word, &hexadecimal, &real);
    printf("%d: %d %s %x %.1f\n", count, number, word, hexadecimal, real);
    errno = 0;
    long most = strtol("99999999999999999999", NULL, 10);
    printf("%d %d\n", most > 0, errno == ERANGE);
    strcpy(text, "one,two;three");
    for (char *part = strtok(text, ",;"); part; part = strtok(NULL, ",;"))
        printf("<%s>", part);
    printf(" %d %s %s\n", strcmp("a", "b") < 0, strstr("haystack", "st"), strrchr("a/b/c", '/'));
}

int main(void)
{
    int numbers[500], word_count = 0, number, total = 0;
    integers();
    doubles();
    texts();
    for (int k = 0; k < 500; k++)
        numbers[k] = k * 7919 % 1009;
    qsort(numbers, 500, sizeof numbers[0], compare);
    int wanted = numbers[123];
    int *found = bsearch(&wanted, numbers, 500, sizeof numbers[0], compare);
    printf("%d %d %d %d\n", numbers[0], numbers[250], numbers[499], (int)(found - numbers));
    while (scanf("%d", &number) == 1) {
        word_count++;
        total += number;
    }
    printf("%d numbers, %d, then %d\n", word_count, total, getchar());
    putchar('p');
    fputc('f', stdout);
    fputs("puts", stdout);
    fwrite("\0\1\n", 1, 3, stdout);
    setvbuf(stdout, NULL, _IOLBF, 0);
    puts("end");
    static char page[9000];
    memset(page, '-', sizeof page);
    page[sizeof page - 1] = '\n';
    fwrite(page, 1, sizeof page, stdout);
    fflush(stdout);
    if (write(STDOUT_FILENO, page + 3999, 5001) == 5001)
        printf("written %d\n", (int)write(77, page, 1));
    return 0;
}
