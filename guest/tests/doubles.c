/* Doubles of all sizes as text, in many formats: up to 17 digits are the same as on Linux. And text as
   doubles. */
#include <math.h>
#include <sched.h>
#include <stdint.h>
#include <stdio.h>
#include <stdlib.h>

static uint64_t state = 88172645463325252ULL;

static uint64_t drawn(void)
{
    state ^= state << 13;
    state ^= state >> 7;
    state ^= state << 17;
    return state;
}

static double of_bits(uint64_t bits)
{
    union { uint64_t bits; double number; } as = { bits };
    return as.number;
}

static void report(double number)
{
    printf("%.0f %.1f %.2f %.6f\n", fmod(number, 1e9), fmod(number, 1e9), fmod(number, 1e8), fmod(number, 1e6));
    printf("%e %.0e %.3E %.16e\n", number, number, number, number);
    printf("%g %.1g %.15g %.17g %10.3g|%-12.2e|%+.1e\n", number, number, number, number, number, number, number);
}

int main(void)
{
    static const double some[] = {
        0, -0.0, 0.5, 1.5, 2.5, 0.25, 0.125, 0.05, 0.45, 0.4999999, 0.0499999, 0.00499999, 0.005, 0.015, 0.995, 9.995,
        9.9999995, 99.99999999, 999999.5, 0.1, 1.0 / 3, 1e15, 1e16, 1e17, 123456789012345678.0, 1e-5, 9.9999e-5, 1e-4,
        5e-324, 2.2250738585072014e-308, 1.7976931348623157e308, 1e100, 1e-100, 4503599627370496.5, 9007199254740993.0
    };
    for (unsigned k = 0; k < sizeof some / sizeof some[0]; k++) {
        report(some[k]);
        report(-some[k]);
    }
    for (int k = 0; k < 60; k++) {
        double number = of_bits(drawn());
        if (isfinite(number))
            report(number);
        report((double)(int64_t)drawn() / (double)(1 << (k % 31)));
        report((double)(drawn() % 100000) / 1000);
    }
    printf("%f %e %g %F %5.1f|%-8f|\n", INFINITY, -INFINITY, (double)NAN, INFINITY, INFINITY, INFINITY);
    for (int k = 0; k < 100; k++) {
        char text[40];
        double number = (double)(int64_t)drawn() / (double)(1ull << (k % 60));
        snprintf(text, sizeof text, "%.17g", number);
        printf("%d", strtod(text, NULL) == number);
        sched_yield();
    }
    printf("\n");
    return 0;
}
