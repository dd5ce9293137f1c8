/* The monitor of `build.sh --guest`. It gives the guest each page when that is first used, its code to read and execute and the rest to
   read and write, and writes the byte of each ecall to the console. A fault elsewhere, as below the stack, a store to the code and a jump to
   the data end the monitor, and the guest with it. */
#include "console.h"
#include "guest.h"
#include "nova.h"

/* Selectors. */
enum { HANDLER = 32, DOMAIN = 33, GUEST_CPU = 34, GUEST_TURNS = 35, EVENTS = 64 };

NOVA_STACK(stack, 512);

NOVA_PORTAL(startup, on_startup);
NOVA_PORTAL(fault, on_fault);
NOVA_PORTAL(guest_call, on_call);

/* The guest begins at its entry. */
void on_startup(uint32_t identifier)
{
    (void)identifier;
    nova_set_counts(0, 0);
    nova_words[NOVA_EXIT_PC] = guest_entry;
    nova_words[NOVA_EXIT_GROUPS] = NOVA_PC;
}

/* A page that the guest may have is given, and the instruction is made again. The identifier is the reason. */
void on_fault(uint32_t reason)
{
    uint32_t address = nova_words[NOVA_EXIT_Q0];
    uint32_t page = nova_page_of(address);
    int is_code = address < guest_code_end;
    uint32_t rights = NOVA_READ | (is_code ? NOVA_EXECUTE : NOVA_WRITE);

    if (address < GUEST_BEGIN || address >= guest_bytes || page == nova_page_of(guest_stack_guard))
        __builtin_trap();
    if (reason == (is_code ? NOVA_STORE_FAULT : NOVA_FETCH_FAULT))
        __builtin_trap();
    nova_delegate(0, nova_memory(nova_page_of((uint32_t)guest_memory) + page, 0, rights), page);
    nova_set_counts(0, 1);
    nova_words[NOVA_EXIT_GROUPS] = 0;
}

/* The byte is in x10. The guest goes on after its ecall. */
void on_call(uint32_t identifier)
{
    (void)identifier;
    put_char((char)nova_register(10));
    nova_set_counts(0, 0);
    nova_words[NOVA_EXIT_PC] += 4;
    nova_words[NOVA_EXIT_GROUPS] = NOVA_PC;
}

static void must(enum nova_status status)
{
    if (status != NOVA_SUCCESS)
        __builtin_trap();
}

/* The portal's identifier is the reason. */
static void must_make_portal(enum nova_reason reason, uint32_t groups, nova_entry entry)
{
    must(nova_create_pt(EVENTS + (nova_selector)reason, NOVA_OWN_PD, HANDLER, groups, entry));
    must(nova_pt_ctrl(EVENTS + (nova_selector)reason, (uint32_t)reason));
}

int main(void)
{
    must(nova_create_ec(HANDLER, NOVA_OWN_PD, NOVA_LOCAL, 0, (uint32_t)(stack + sizeof stack), 0));
    must_make_portal(NOVA_STARTUP, 0, startup);
    must_make_portal(NOVA_FETCH_FAULT, NOVA_QUAL, fault);
    must_make_portal(NOVA_LOAD_FAULT, NOVA_QUAL, fault);
    must_make_portal(NOVA_STORE_FAULT, NOVA_QUAL, fault);
    must_make_portal(NOVA_ECALL, NOVA_PC | NOVA_LOW, guest_call);
    must(nova_create_pd(DOMAIN, NOVA_OWN_PD, nova_objects(EVENTS, 4, NOVA_PT_EVENT)));
    must(nova_create_ec(GUEST_CPU, DOMAIN, NOVA_VCPU, 0, guest_bytes, EVENTS));
    must(nova_create_sc(GUEST_TURNS, NOVA_OWN_PD, GUEST_CPU, 2, 256));
    return 0;
}
