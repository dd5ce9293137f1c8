/* Thread-locals that begin with a value, and with zero. */
#include <stdio.h>

static _Thread_local int seven = 7;
static _Thread_local char text[] = "a thread-local";
static _Thread_local long long large = 0x123456789abcdef;
static _Thread_local int zeros[3];

static int __attribute__((noinline)) count(void)
{
    return zeros[1] += seven++;
}

int main(void)
{
    printf("%d %s %llx %d %d %d\n", seven, text, large, zeros[0], zeros[1], zeros[2]);
    count();
    count();
    text[0] = 'A';
    printf("%d %s %llx %d %d %d\n", seven, text, large, zeros[0], zeros[1], zeros[2]);
    return 0;
}
