/* Two threads and a handler, whose stacks lie one behind the other and grow too large: each faults at the page below its own. */
#include "console.h"
#include "nova.h"

enum { STARTER = 32, THREADS = 34, EVENTS = 48, HANDLER = 80, PORTAL = 81 };

NOVA_STACK(below, 512);
NOVA_STACKS(stacks, 2, 5000);

NOVA_THREAD(thread_entry, thread);
NOVA_PORTAL(portal_entry, portal);

static int __attribute__((noinline)) deeper(int depth)
{
    volatile char room[128];

    room[0] = (char)depth;
    return depth == 1000000 ? 0 : deeper(depth + 1) + room[0];
}

void thread(void)
{
    put_char((char)('0' + deeper(0)));
}

void portal(uint32_t identifier)
{
    put_char((char)('0' + deeper((int)identifier)));
}

static void put_status(const char *what, enum nova_status status)
{
    put_text(what);
    put_char((char)('0' + (int)status));
    put_char('\n');
}

int main(void)
{
    put_status("starter ", nova_create_handlers(STARTER, NOVA_OWN_PD, 1, 0, 0));
    for (uint32_t i = 0; i < 2; i++)
        put_status("thread ", nova_start(THREADS + 2 * i, 0, STARTER, EVENTS + 16 * i, thread_entry, stacks[i] + sizeof stacks[i], 3, 100));
    put_status("handler ", nova_create_ec(HANDLER, NOVA_OWN_PD, NOVA_LOCAL, 0, (uint32_t)(below + sizeof below), 0));
    put_status("portal ", nova_create_pt(PORTAL, NOVA_OWN_PD, HANDLER, 0, portal_entry));
    put_status("call ", nova_call(PORTAL, NOVA_WAIT));
    return 0;
}
