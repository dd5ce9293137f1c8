/* A queue without locks, of one producer and one consumer. Only the producer stores `tail`, and only the consumer `head`. A slot is filled before
   `tail` says so; with -DEARLY after that, and then the consumer may take what isn't there yet.

   tools/c/build.sh --debug -O2 -Itools/c/examples --cpus 2 examples/explore/queue.c queue.nova 3
   python3 tools/explore queue.nova --elf queue.elf asserts

   queue.nova and queue_early.nova beside this are built without --debug. */
#include "must.h"

#include <stdbool.h>

/* How often the producer tries to put an item in, and the consumer to take one out: where it is full, or empty, a try does nothing. */
enum { SLOTS = 2, PUTS = 3, LOOKS = 2 };

/* Selectors. CONSUMER is followed by the thread's scheduling context, EVENTS by the portals of its exits. */
enum { STARTER = 34, CONSUMER = 36, EVENTS = 48 };

/* Nobody uses up a quantum of so many turns. */
enum { QUANTUM = 1000 };

static volatile unsigned slots[SLOTS], head, tail, taken;
NOVA_STACK(stack, 512);

NOVA_THREAD(consumer_begins, consumer);

/* Puts an item at the end; says whether there was room. */
static bool put(unsigned item)
{
    unsigned end = tail;

    if (end - head == SLOTS)
        return false;
#ifdef EARLY
    tail = end + 1;
    slots[end % SLOTS] = item;
#else
    slots[end % SLOTS] = item;
    tail = end + 1;
#endif
    return true;
}

/* Takes the item at the beginning; says whether there was one. */
static bool take(unsigned *item)
{
    unsigned begin = head;

    if (begin == tail)
        return false;
    *item = slots[begin % SLOTS];
    head = begin + 1;
    return true;
}

/* Looks so often, and not until all have come: a loop without end has no end of states. */
void consumer(void)
{
    unsigned item;

    for (int i = 0; i < LOOKS; i++)
        if (take(&item)) {
            nova_assert(item == taken + 1);
            taken++;
        }
}

int main(void)
{
    unsigned item = 1;

    must(nova_create_ec(STARTER, NOVA_OWN_PD, NOVA_LOCAL, 1, 0, 0), "create_ec");
    must(nova_start(CONSUMER, 1, STARTER, EVENTS, consumer_begins, stack + sizeof stack, 1, QUANTUM), "start");
    for (int i = 0; i < PUTS; i++)
        if (put(item))
            item++;
    return 0;
}
