/* A monitor. It gives its guest each page when that is first used, and does for it what pager.h says. What it notes is on the second
   console, so it is built with --consoles 2. */
#include "guest.h"
#include "must.h"
#include "pager.h"

/* Selectors. EVENTS is followed by the portals of the guest's exits, and is the guest's event base. */
enum { HANDLER = 32, DOMAIN = 33, GUEST_CPU = 34, GUEST_TURNS = 35, EVENTS = 64 };

static uint32_t pages;
NOVA_STACK(stack, 512);

NOVA_PORTAL(startup, on_startup);
NOVA_PORTAL(fault, on_fault);
NOVA_PORTAL(guest_call, on_call);

static void note_char(char character)
{
    *(volatile char *)((uint32_t)&console + NOVA_PAGE_BYTES) = character;
}

static void note(const char *what, uint32_t word)
{
    while (*what)
        note_char(*what++);
    for (int shift = 28; shift >= 0; shift -= 4)
        note_char("0123456789abcdef"[word >> shift & 15]);
    note_char('\n');
}

/* The guest begins at its entry. */
void on_startup(uint32_t identifier)
{
    (void)identifier;
    note("begins at ", guest_entry);
    nova_words[NOVA_EXIT_PC] = guest_entry;
    nova_words[NOVA_EXIT_GROUPS] = NOVA_PC;
    nova_set_counts(0, 0);
}

/* The page is given, and the guest's instruction is made again. A fault where the guest has no memory, as below its stack, a store to its code
   and a jump to its data end the monitor, and so the guest. */
void on_fault(uint32_t identifier)
{
    uint32_t address = nova_words[NOVA_EXIT_Q0], page = nova_page_of(address);
    int code = address < guest_code_end;
    uint32_t rights = code ? NOVA_READ | NOVA_EXECUTE : NOVA_READ | NOVA_WRITE;

    if (address < GUEST_BEGIN || address >= guest_bytes || page == nova_page_of(guest_stack_guard) ||
        identifier == (code ? NOVA_STORE_FAULT : NOVA_FETCH_FAULT)) {
        note("no memory at ", address);
        __builtin_trap();
    }
    note("gives page ", page);
    pages++;
    nova_delegate(0, nova_memory(nova_page_of((uint32_t)guest_memory) + page, 0, rights), page);
    nova_words[NOVA_EXIT_GROUPS] = 0;
    nova_set_counts(0, 1);
}

/* Writes bytes of the guest's memory, as far as they are there. */
static uint32_t write(uint32_t address, uint32_t length)
{
    if (address < GUEST_BEGIN || address > guest_bytes)
        return 0;
    if (length > guest_bytes - address)
        length = guest_bytes - address;
    for (uint32_t i = 0; i < length; i++)
        put_char((char)guest_memory[address + i]);
    return length;
}

/* Does what x17 says. The guest goes on after its ecall. */
void on_call(uint32_t identifier)
{
    (void)identifier;
    switch (nova_register(17)) {
    case PUT_CHAR:
        put_char((char)nova_register(10));
        break;
    case WRITE:
        nova_register(10) = write(nova_register(10), nova_register(11));
        break;
    case PAGES:
        nova_register(10) = pages;
        break;
    default:
        note("no such call: ", nova_register(17));
    }
    nova_words[NOVA_EXIT_PC] += 4;
    nova_words[NOVA_EXIT_GROUPS] = NOVA_PC | NOVA_LOW;
    nova_set_counts(0, 0);
}

/* The handler is told the reason as the portal's identifier. */
static void handle(enum nova_reason reason, uint32_t groups, nova_entry entry)
{
    must(nova_create_pt(EVENTS + (uint32_t)reason, NOVA_OWN_PD, HANDLER, groups, entry), "create_pt");
    must(nova_pt_ctrl(EVENTS + (uint32_t)reason, (uint32_t)reason), "pt_ctrl");
}

int main(void)
{
    must(nova_create_ec(HANDLER, NOVA_OWN_PD, NOVA_LOCAL, 0, (uint32_t)(stack + sizeof stack), 0), "create_ec");
    handle(NOVA_STARTUP, 0, startup);
    handle(NOVA_FETCH_FAULT, NOVA_QUAL, fault);
    handle(NOVA_LOAD_FAULT, NOVA_QUAL, fault);
    handle(NOVA_STORE_FAULT, NOVA_QUAL, fault);
    handle(NOVA_ECALL, NOVA_PC | NOVA_LOW | NOVA_HIGH, guest_call);
    must(nova_create_pd(DOMAIN, NOVA_OWN_PD, nova_objects(EVENTS, 4, NOVA_PT_EVENT)), "create_pd");
    must(nova_create_ec(GUEST_CPU, DOMAIN, NOVA_VCPU, 0, guest_bytes, EVENTS), "create_ec");
    must(nova_create_sc(GUEST_TURNS, NOVA_OWN_PD, GUEST_CPU, 2, 256), "create_sc");
    return 0;
}
