/* Reads its input by getchar, by fread, by fgets and by getline, and from a position in the middle: each time all of
   it, byte for byte. */
#include <stdio.h>
#include <stdlib.h>
#include <string.h>

static unsigned sum, count;

static void add(const unsigned char *bytes, size_t length)
{
    for (size_t k = 0; k < length; k++)
        sum = (sum << 5) + sum + bytes[k];
    count += (unsigned)length;
}

static void report(const char *how)
{
    printf("%s: %u bytes %08x, at the end %d, failed %d\n", how, count, sum, feof(stdin) != 0, ferror(stdin) != 0);
    sum = count = 0;
    rewind(stdin);
}

int main(void)
{
    static unsigned char bytes[10000];
    char *line = NULL;
    size_t size = 0, got;
    ssize_t length;
    int byte;
    while ((byte = getchar()) != EOF) {
        unsigned char one = (unsigned char)byte;
        add(&one, 1);
    }
    report("getchar");
    while ((got = fread(bytes, 1, sizeof bytes, stdin)) > 0)
        add(bytes, got);
    report("fread");
    while ((got = fread(bytes, 3, 333, stdin)) > 0)
        add(bytes, 3 * got);
    report("fread of threes");
    while (fgets((char *)bytes, 100, stdin))
        add(bytes, strlen((char *)bytes));
    report("fgets");
    unsigned lines = 0, longest = 0;
    while ((length = getline(&line, &size, stdin)) > 0) {
        add((unsigned char *)line, (size_t)length);
        lines++;
        longest = length > (ssize_t)longest ? (unsigned)length : longest;
    }
    printf("lines %u, longest %u\n", lines, longest);
    report("getline");
    printf("seek %d\n", fseek(stdin, 5000, SEEK_SET));
    byte = getchar();
    printf("%d at %ld\n", byte, ftell(stdin));
    if (byte != EOF) {
        printf("given back %d", ungetc(byte, stdin) == byte);
        printf(", and it is %d\n", getchar() == byte);
    }
    free(line);
    return 0;
}
