/* errno, which is a thread-local, begins with 0, and is set by what the library refuses. */
#include <errno.h>
#include <stdio.h>
#include <stdlib.h>

int main(void)
{
    FILE *file;

    printf("%d\n", errno);
    strtol("99999999999999999999", NULL, 10);
    printf("%d\n", errno == ERANGE);
    errno = 7;
    printf("%ld %d\n", strtol("42", NULL, 10), errno);
    file = fopen("/nowhere/nothing", "r");
    printf("%d %d\n", file == NULL, errno == ENOENT);
    return 0;
}
