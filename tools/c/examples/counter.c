/* Two threads, one on each processor, add to one counter. A semaphore lets one of them at it at a time, and another one tells main when both
   are done. */
#include "must.h"

enum { ROUNDS = 5 };

/* Selectors. OTHER is followed by the thread's scheduling context, EVENTS by the portals of its exits. */
enum { FREE = 32, DONE = 33, STARTER = 34, OTHER = 36, EVENTS = 48 };

static volatile unsigned counter;
NOVA_STACK(stack, 512);

NOVA_THREAD(other_begins, other);

static void add(void)
{
    for (int i = 0; i < ROUNDS; i++) {
        must(nova_down(FREE), "down");
        counter++;
        must(nova_up(FREE), "up");
    }
}

void other(void)
{
    add();
    must(nova_up(DONE), "up");
}

int main(void)
{
    must(nova_create_sm(FREE, NOVA_OWN_PD, 1), "create_sm");
    must(nova_create_sm(DONE, NOVA_OWN_PD, 0), "create_sm");
    must(nova_create_ec(STARTER, NOVA_OWN_PD, NOVA_LOCAL, 1, 0, 0), "create_ec");
    must(nova_start(OTHER, 1, STARTER, EVENTS, other_begins, stack + sizeof stack, 1, 10), "start");
    add();
    must(nova_down(DONE), "down");
    put_text("counter ");
    put_hex(counter);
    put_char('\n');
    return (int)counter;
}
