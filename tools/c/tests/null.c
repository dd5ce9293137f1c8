/* A store through a null pointer ends the program. */
#include <stdio.h>

int *volatile nowhere;

int main(void)
{
    puts("before");
    fflush(stdout);
    *nowhere = 1;
    puts("after");
    return 0;
}
