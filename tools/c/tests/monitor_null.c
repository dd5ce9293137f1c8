/* A monitor, and its guest in one file: the monitor's handler stores through a null pointer, which faults, so that it dies. */
#include "console.h"

#ifdef GUEST
int main(void)
{
    put_text("from the guest");
    return 0;
}
#else
#include "guest.h"
#include "nova.h"

enum { HANDLER = 32, DOMAIN, CPU, TURNS, EVENTS = 64 };

NOVA_STACK(stack, 512);
static int *volatile nowhere;

NOVA_PORTAL(startup, on_startup);
NOVA_PORTAL(guest_call, on_call);

void on_startup(uint32_t identifier)
{
    (void)identifier;
    nova_delegate(0, nova_memory(nova_page_of((uint32_t)guest_memory), 2, NOVA_ALL_OF_MEMORY), 0);
    nova_set_counts(0, 1);
    nova_words[NOVA_EXIT_PC] = guest_entry;
    nova_words[NOVA_EXIT_GROUPS] = NOVA_PC;
}

void on_call(uint32_t identifier)
{
    put_text("before\n");
    *nowhere = (int)identifier;
    put_text("after\n");
}

int main(void)
{
    enum nova_status status = nova_create_ec(HANDLER, NOVA_OWN_PD, NOVA_LOCAL, 0, (uint32_t)(stack + sizeof stack), 0);

    status |= nova_create_pt(EVENTS + NOVA_STARTUP, NOVA_OWN_PD, HANDLER, 0, startup);
    status |= nova_create_pt(EVENTS + NOVA_ECALL, NOVA_OWN_PD, HANDLER, NOVA_LOW, guest_call);
    status |= nova_create_pd(DOMAIN, NOVA_OWN_PD, nova_objects(EVENTS, 4, NOVA_PT_EVENT));
    status |= nova_create_ec(CPU, DOMAIN, NOVA_VCPU, 0, 0, EVENTS);
    status |= nova_create_sc(TURNS, NOVA_OWN_PD, CPU, 2, 256);
    return (int)status;
}
#endif
