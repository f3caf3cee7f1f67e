/* The arguments of main, and a program's char, which is signed. */
#include <limits.h>
#include <stdio.h>
#include <string.h>
#include <unistd.h>

int main(int count, char **words, char **environment)
{
    char *name = strrchr(words[0], '/'), c = (char)200;
    printf("%d %d %d\n", count, words[count] == NULL, environment != NULL);
    printf("%d\n", (int)strlen(name ? name + 1 : words[0]) > 0);
    for (int k = 1; k < count; k++)
        printf("[%s]\n", words[k]);
    for (int option; (option = getopt(count, words, "ab:")) != -1;)
        printf("-%c %s\n", option, option == 'b' ? optarg : "");
    if (count > 1)
        words[1][0] = 'x';
    printf("%d %d %d\n", c, CHAR_MIN, c < 0);
    return count;
}
