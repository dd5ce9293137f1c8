/* A monitor with a timer. While its guest runs, main waits at a semaphore with a deadline; when that is over it recalls the guest, and the
   handler of the recall has the guest's function for ticks called. With SOURCE defined main waits for the first source of the scenario
   instead. */
#include "guest.h"
#include "must.h"
#include "timer.h"

/* Selectors. EVENTS is followed by the portals of the guest's exits, and is the guest's event base. */
enum { HANDLER = 32, DOMAIN = 33, GUEST_CPU = 34, GUEST_TURNS = 35, FINISHED = 36, EVENTS = 64 };

enum { TICK = 1500 }; /* turns from one tick to the next */

static uint32_t tick_function; /* the guest's */
static int masked = 1;         /* whether ticks are passed over, as from a tick until the guest resumes */
static volatile int finished;
NOVA_STACK(stack, 512);

NOVA_PORTAL(startup, on_startup);
NOVA_PORTAL(recall, on_recall);
NOVA_PORTAL(guest_call, on_call);
NOVA_PORTAL(end, on_end);

/* The order of the largest range that begins at a page and reaches no further than to `end`. */
static uint32_t order_at(uint32_t page, uint32_t end)
{
    uint32_t order = 0;

    while (page % (2u << order) == 0 && page + (2u << order) <= end)
        order++;
    return order;
}

/* Gives the guest its pages from `page` up to `end`, by items from number `items` on, and answers how many items there are then. */
static uint32_t give(uint32_t items, uint32_t page, uint32_t end, uint32_t rights)
{
    for (; page < end; items++) {
        uint32_t order = order_at(page, end);

        nova_delegate(items, nova_memory(nova_page_of((uint32_t)guest_memory) + page, order, rights), page);
        page += 1u << order;
    }
    return items;
}

/* The guest begins at its entry, with all its memory but the page of its null pointer and that below its stack. */
void on_startup(uint32_t identifier)
{
    uint32_t data = nova_page_of(guest_code_end);
    uint32_t items = give(0, nova_page_of(GUEST_BEGIN), data, NOVA_READ | NOVA_EXECUTE);

    (void)identifier;
    items = give(items, data, nova_page_of(guest_stack_guard), NOVA_READ | NOVA_WRITE);
    items = give(items, nova_page_of(guest_stack_guard) + 1, nova_page_of(guest_bytes), NOVA_READ | NOVA_WRITE);
    nova_words[NOVA_EXIT_PC] = guest_entry;
    nova_words[NOVA_EXIT_GROUPS] = NOVA_PC;
    nova_set_counts(0, items);
}

/* A frame of the guest's, or null where it doesn't lie in the guest's memory. */
static struct frame *frame_at(uint32_t address)
{
    if (address < GUEST_BEGIN || address > guest_bytes - sizeof(struct frame) || address % 4 != 0)
        return 0;
    return (struct frame *)(guest_memory + address);
}

/* A tick: the guest's registers go to a frame, and it goes on in its function. */
void on_recall(uint32_t identifier)
{
    uint32_t address = (nova_register(2) - sizeof(struct frame)) & ~15u;
    struct frame *frame = frame_at(address);

    (void)identifier;
    nova_set_counts(0, 0);
    nova_words[NOVA_EXIT_GROUPS] = 0;
    if (masked || !frame)
        return;
    frame->pc = nova_words[NOVA_EXIT_PC];
    for (int i = 1; i < 32; i++)
        frame->x[i] = nova_register(i);
    nova_register(2) = nova_register(10) = address;
    nova_words[NOVA_EXIT_PC] = tick_function;
    nova_words[NOVA_EXIT_GROUPS] = NOVA_PC | NOVA_LOW;
    masked = 1;
}

/* The guest goes on with the registers of a frame. */
static void resume(const struct frame *frame)
{
    if (!frame)
        return;
    nova_words[NOVA_EXIT_PC] = frame->pc;
    for (int i = 1; i < 32; i++)
        nova_register(i) = frame->x[i];
    nova_words[NOVA_EXIT_GROUPS] = NOVA_PC | NOVA_LOW | NOVA_HIGH;
    masked = tick_function == 0;
}

void on_call(uint32_t identifier)
{
    (void)identifier;
    nova_words[NOVA_EXIT_PC] += 4;
    nova_words[NOVA_EXIT_GROUPS] = NOVA_PC;
    switch (nova_register(17)) {
    case PUT_CHAR:
        put_char((char)nova_register(10));
        break;
    case SET_TIMER:
        tick_function = nova_register(10);
        break;
    case RESUME:
        resume(frame_at(nova_register(10)));
    }
    nova_set_counts(0, 0);
}

/* Whatever else the guest comes to is its end. A guest whose handler dies before it replies dies too. */
void on_end(uint32_t identifier)
{
    (void)identifier;
    finished = 1;
    must(nova_up(FINISHED), "up");
    __builtin_trap();
}

/* Waits for the next tick. Answers whether the guest is still there. */
static int tick(void)
{
#ifdef SOURCE
    must(nova_down(NOVA_FIRST_SOURCE), "down");
    return !finished;
#else
    return nova_down_with_deadline(FINISHED, TICK) == NOVA_TIMEOUT;
#endif
}

static void handle(enum nova_reason reason, uint32_t groups, nova_entry entry)
{
    must(nova_create_pt(EVENTS + (uint32_t)reason, NOVA_OWN_PD, HANDLER, groups, entry), "create_pt");
}

static void make_guest(void)
{
    must(nova_create_ec(HANDLER, NOVA_OWN_PD, NOVA_LOCAL, 0, (uint32_t)(stack + sizeof stack), 0), "create_ec");
    handle(NOVA_STARTUP, 0, startup);
    for (enum nova_reason reason = NOVA_ILLEGAL; reason <= NOVA_MISALIGNED; reason++)
        handle(reason, 0, end);
    handle(NOVA_ECALL, NOVA_PC | NOVA_LOW | NOVA_HIGH, guest_call);
    handle(NOVA_EBREAK, 0, end);
    handle(NOVA_RECALL, NOVA_PC | NOVA_LOW | NOVA_HIGH, recall);
    must(nova_create_pd(DOMAIN, NOVA_OWN_PD, nova_objects(EVENTS, 4, NOVA_PT_EVENT)), "create_pd");
    must(nova_create_ec(GUEST_CPU, DOMAIN, NOVA_VCPU, 0, guest_bytes, EVENTS), "create_ec");
    must(nova_create_sc(GUEST_TURNS, NOVA_OWN_PD, GUEST_CPU, 0, 256), "create_sc"); /* main goes before the guest */
}

int main(void)
{
    must(nova_create_sm(FINISHED, NOVA_OWN_PD, 0), "create_sm");
    make_guest();
    while (tick())
        must(nova_ec_ctrl(GUEST_CPU), "ec_ctrl");
    return 0;
}
