/* A way back out of a recursion, and the registers and the stack as they were. */
#include <setjmp.h>
#include <stdio.h>

static jmp_buf way_back;

static int deepest = 20;

static int __attribute__((noinline)) deeper(int depth)
{
    volatile int here[16] = {depth};

    if (depth > 100)
        return 0;
    if (depth == deepest)
        longjmp(way_back, 20 + here[0]);
    return deeper(depth + 1) + here[0];
}

int main(void)
{
    volatile int times = 0;
    int came = setjmp(way_back);

    times++;
    printf("%d %d\n", times, came);
    if (came == 0)
        deeper(0);
    if (times == 2)
        longjmp(way_back, 0);
    printf("done %d\n", times);
    return 0;
}
