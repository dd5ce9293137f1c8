/* What main returns is the status, in x10 at the end. */
#include <stdio.h>

int main(int count, char **words)
{
    (void)words;
    fputs("to stderr\n", stderr);
    printf("%d %d\n", count < 2, getchar() == EOF);
    return 77;
}
