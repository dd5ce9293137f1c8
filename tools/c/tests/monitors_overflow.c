/* Two monitors, each on a processor of its own, whose stacks grow too large before they have begun their guests: each faults at the page below. */
#include "console.h"

#ifdef GUEST
int main(void)
{
    return 0;
}
#else
static int __attribute__((noinline)) deeper(int depth)
{
    volatile char room[128];

    room[0] = (char)depth;
    return depth == 1000000 ? 0 : deeper(depth + 1) + room[0];
}

int main(void)
{
    put_text("before\n");
    put_char((char)('0' + deeper(0)));
    return 0;
}
#endif
