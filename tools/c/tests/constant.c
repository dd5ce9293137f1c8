/* A store to a constant faults, as one to the code does. */
#include <stdio.h>

static const char constant[] = "a constant";
static const char *volatile place = constant;

int main(void)
{
    puts(place);
    fflush(stdout);
    *(char *)place = 'A';
    puts(place);
    return 0;
}
