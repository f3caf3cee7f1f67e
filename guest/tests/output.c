/* Outputs 200 MB, a million lines of 200 bytes. */
#include <stdio.h>
#include <string.h>

int main(void)
{
    static char line[200];
    memset(line, '.', sizeof line - 1);
    line[199] = '\n';
    for (int k = 0; k < 1000000; k++)
        fwrite(line, 1, sizeof line, stdout);
    return 0;
}
