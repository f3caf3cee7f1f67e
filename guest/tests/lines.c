/* Prints a line for each 16 bytes of its input: after an edit of a byte only the steps that print near its line are
   executed. */
#include <stdio.h>

static char text[65536];

int main(void)
{
    size_t count = fread(text, 1, sizeof text, stdin);
    unsigned line = 0;
    for (size_t k = 0; k + 16 <= count; k += 16) {
        unsigned sum = 0;
        for (int j = 0; j < 16; j++)
            sum = sum * 2 + (unsigned char)text[k + j];
        printf("line %05u: %.15s %08x\n", line++, text + k, sum);
    }
    return 0;
}
