/* A stack that grows too large faults at the page below it. */
#include <stdio.h>

static volatile int wanted = 1000000;

static int __attribute__((noinline)) deeper(int depth)
{
    volatile char room[128];

    room[0] = (char)depth;
    return depth == wanted ? 0 : deeper(depth + 1) + room[0];
}

int main(void)
{
    puts("before");
    fflush(stdout);
    printf("after %d\n", deeper(0));
    return 0;
}
