/* A thread on another processor, and a handler with two portals: each has a stack, gp and thread-locals of its own. */
#include "console.h"
#include "nova.h"

enum { STARTER = 32, EVENTS = 48, THREAD = 64, DONE = 66, HANDLER = 67, ADD = 68, ASK = 69 };

static _Thread_local int mine = 7;
static _Thread_local int zero;
static int shared = 1;
NOVA_STACKS(stacks, 2, 1024);

NOVA_THREAD(other_entry, other);
NOVA_PORTAL(add_entry, add);
NOVA_PORTAL(ask_entry, ask);

static void put_all(const char *who)
{
    put_text(who);
    put_hex((unsigned)mine);
    put_char(' ');
    put_hex((unsigned)zero);
    put_char('\n');
}

void other(void)
{
    mine += 10;
    zero += 1;
    put_all("other ");
    shared = 2;
    nova_up(DONE);
}

void add(uint32_t identifier)
{
    mine += (int)nova_words[NOVA_DATA];
    zero += (int)identifier;
    nova_set_counts(0, 0);
}

void ask(uint32_t identifier)
{
    (void)identifier;
    nova_words[NOVA_DATA] = (uint32_t)mine;
    nova_words[NOVA_DATA + 1] = (uint32_t)zero;
    nova_set_counts(2, 0);
}

static void must(enum nova_status status, const char *what)
{
    if (status == NOVA_SUCCESS)
        return;
    put_text(what);
    put_hex(status);
    __builtin_trap();
}

static void call_handler(void)
{
    must(nova_create_ec(HANDLER, NOVA_OWN_PD, NOVA_LOCAL, 0, (uint32_t)(stacks[0] + sizeof stacks[0]), 0), "handler ");
    must(nova_create_pt(ADD, NOVA_OWN_PD, HANDLER, 0, add_entry), "portal ");
    must(nova_create_pt(ASK, NOVA_OWN_PD, HANDLER, 0, ask_entry), "portal ");
    must(nova_pt_ctrl(ADD, 5), "identifier ");
    for (int i = 0; i < 3; i++) {
        nova_words[NOVA_DATA] = 100;
        nova_set_counts(1, 0);
        must(nova_call(ADD, NOVA_WAIT), "call ");
    }
    must(nova_call(ASK, NOVA_DONT_WAIT), "call ");
    put_text("handler ");
    put_hex(nova_words[NOVA_DATA]);
    put_char(' ');
    put_hex(nova_words[NOVA_DATA + 1]);
    put_char('\n');
}

int main(void)
{
    mine++;
    put_all("main  ");
    must(nova_create_sm(DONE, NOVA_OWN_PD, 0), "semaphore ");
    must(nova_create_ec(STARTER, NOVA_OWN_PD, NOVA_LOCAL, 1, 0, 0), "starter ");
    must(nova_start(THREAD, 1, STARTER, EVENTS, other_entry, stacks[1] + sizeof stacks[1], 1, 10), "start ");
    must(nova_down(DONE), "down ");
    call_handler();
    put_all("main  ");
    return shared;
}
