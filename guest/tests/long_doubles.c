/* long double printed and read, with no more digits than Linux' long double has, or with all digits of numbers that
   have few. */
#include <float.h>
#include <math.h>
#include <stdarg.h>
#include <stdio.h>
#include <string.h>

static volatile long double tenth = 0.1L, third = 1;

static void print(const char *format, ...)
{
    char text[6000];
    va_list arguments;
    va_start(arguments, format);
    int length = vsnprintf(text, sizeof text, format, arguments);
    va_end(arguments);
    printf("%s: [%s] %d %d\n", format, text, length, (int)strlen(text) == length);
}

static void exact(void)
{
    static const char *const formats[] = {
        "%Lf", "%Le", "%Lg", "%LF", "%LE", "%LG", "%.0Lf", "%.0Le", "%.0Lg", "%#.0Lf", "%#.0Le", "%#Lg", "%.1Lf",
        "%.3Lf", "%20.2Lf", "%-20.2Lf|", "%+Lf", "% Lf", "%020.3Lf", "%-020.3Lf|", "%.10Lg", "%.20Lf", "%.30Le",
        "%+.40Lg", "%'.2Lf"
    };
    static const long double numbers[] = {
        0.0L, -0.0L, 1.0L, -1.0L, 1.5L, 0.5L, 2.5L, 3.5L, 0.25L, 0.125L, 0.0625L, 1024.0L, 1e10L, 123456.75L, 899999.5L,
        9999995.0L, 99999.96875L, 1e15L, 123456789012345678.0L, 0.0009765625L, 0x1p-20L, 0x1p70L, 0x1p-70L, -0x1.8p100L,
        9.5L, 99.5L, 0.9375L, 18446744073709551615.0L
    };
    for (unsigned k = 0; k < sizeof numbers / sizeof *numbers; k++)
        for (unsigned f = 0; f < sizeof formats / sizeof *formats; f++)
            print(formats[f], numbers[k]);
}

static void near(void)
{
    long double sum = 0;
    for (int k = 1; k <= 20; k++) {
        sum += third / k;
        printf("%d %.15Lf %.15Lg %.12Le\n", k, sum, sum * 1e6L, tenth / sum);
    }
    print("%.17Lg", tenth);
    print("%.15Lf", 3.14159265358979323846L);
    print("%.10Le", 1e300L * 1e300L);
    print("%.10Le", 1e-300L * 1e-300L);
    print("%.10Le", 1e400L);
    print("%.12Lg", LDBL_MAX / 1e4900L);
    print("%Lf %d %Lg %s %.3f %lld %Le", 1.5L, 7, 2.5L, "between", 0.1, 1LL << 40, 3.5L);
    print("%*.*Lf|%-*Lf|%.*Lf", 12, 3, 1.0625L, 12, 2.0L, -1, 0.5L);
    print("%.2Lf%%, %c, %5s|%-5d|%hhd %ld %zu", 99.5L, 'x', "ab", 3, (char)-1, -5L, sizeof(char));
    print("%Ld %Lu %Lx", 1LL << 50, 1ULL << 60, 255ULL);
    print("%Lf %LE %LF %10Lg|", (long double)INFINITY, -(long double)INFINITY, (long double)INFINITY,
          (long double)INFINITY);
    fprintf(stdout, "%Lg\n", 1.25L);
}

static void read(void)
{
    static const char *const texts[] = {
        "1.5", " -2.25e3 ", "+.5", "5.", "1e-3x", "inf", "-INFINITY", "0x1.8p1", "12345678901234567890", "x", "", "  ",
        ".", "-", "1e400", "7 8", "000012"
    };
    for (unsigned k = 0; k < sizeof texts / sizeof *texts; k++) {
        long double number = -1;
        int end = -1, result = sscanf(texts[k], "%Lf%n", &number, &end);
        printf("[%s]: %d %.10Lg %d\n", texts[k], result, number, end);
    }
    long double one = 0, other = 0;
    double plain = 0;
    int whole = 0, result;
    char word[20] = "";
    result = sscanf("x=1.5, 42 2.75 word 8.125", "x=%Lf, %d %lf %19s %Lg", &one, &whole, &plain, word, &other);
    printf("%d %.3Lf %d %.3f %s %.3Lf\n", result, one, whole, plain, word, other);
    result = sscanf("123456", "%3Lf%*2f%Lf", &one, &other);
    printf("%d %.1Lf %.1Lf\n", result, one, other);
    result = sscanf("1.5 abc", "%Lf %Lf", &one, &other);
    printf("%d\n", result);
    result = sscanf("[ab]9", "[%[^]]]%Le", word, &one);
    printf("%d %s %.1Lf\n", result, word, one);
    long long large = 0;
    result = sscanf("1099511627776", "%Ld", &large);
    printf("%d %lld\n", result, large);
    while (scanf("%Lf", &one) == 1)
        printf("read %.12Lg\n", one);
    result = scanf("%19s", word);
    printf("%d %s\n", result, word);
}

int main(void)
{
    exact();
    near();
    read();
    return 0;
}
