/* Each function of nova.h, with what it answers: a line each, with its status or its answer, and what it tells besides. The handler, in a domain
   of its own, tells what it finds by the words of its replies. Arguments that are too large are volatile, since the compiler refuses those
   that it knows. */
#include "console.h"
#include "nova.h"

/* Selectors. DOMAIN is followed by three for nova_give, and each thread by its scheduling context. */
enum { STARTERS = 32, DOMAIN = 36, HANDLERS = 40, PORTALS = 42, THREAD = 44, OTHER = 46, SEMAPHORE = 48, FULL, WATCH, SPARE, FREE, THERE, FAILING };
enum { EVENTS = 64, OTHER_EVENTS = 80, LAST_EVENTS = 112, ELSEWHERE = 96, WINDOW = 0x100, NOTHING = 0x77 };

enum { CPUS = 2, SECOND = 1 };

NOVA_STACK(stack, 1024);
NOVA_STACK(watch_stack, 1024);
NOVA_STACK(failing_stack, 1024);
NOVA_STACKS(stacks, CPUS, 1024);

static const struct nova_domain domain = {.pd = DOMAIN, .cpu = 0, .starter = STARTERS};
static const struct nova_domain elsewhere = {.pd = ELSEWHERE, .cpu = SECOND, .starter = STARTERS}; /* which is no starter of that processor */
static volatile uint32_t large = 256, null;

NOVA_THREAD(thread_begins, thread);
NOVA_THREAD(failing_begins, failing);
NOVA_PORTAL(handler_entry, handle);
NOVA_PORTAL(watch_entry, watch);

static void tell(const char *what, uint32_t answer, uint32_t value)
{
    put_text(what);
    put_char(' ');
    put_hex(answer);
    put_char(' ');
    put_hex(value);
    put_char('\n');
}

void thread(void)
{
    nova_up(SEMAPHORE);
}

void failing(void)
{
    nova_assert(nova_failed == 0);
    tell("assert", nova_failed, 0);
    nova_assert(nova_failed == 1);
    tell("assert", NOTHING, NOTHING);
}

/* The first call sets the window for the next. Each is told of its message, and asked where main has the semaphore. */
void handle(uint32_t identifier)
{
    uint32_t counts = nova_words[NOVA_COUNTS];

    nova_words[NOVA_DATA] = identifier;
    nova_words[NOVA_DATA + 1] = nova_words_in(counts);
    nova_words[NOVA_DATA + 2] = nova_items_in(counts);
    nova_words[NOVA_DATA + 3] = nova_item(0);
    nova_words[NOVA_DATA + 4] = nova_item(1);
    nova_set_windows(NOVA_NULL, nova_memory(WINDOW, 1, NOVA_READ));
    nova_translate(0, nova_objects(THERE, 0, NOVA_ALL_RIGHTS));
    nova_set_counts(5, 1);
}

/* The recall of main: its registers tell which call it made last. */
void watch(uint32_t identifier)
{
    tell("recall", identifier, nova_register(17));
    nova_words[NOVA_EXIT_GROUPS] = 0;
    nova_set_counts(0, 0);
}

static void ranges(void)
{
    nova_range range = nova_range_of(NOVA_OBJECTS, 0x40000, 18, 21);

    tell("range_of", range, nova_range_of(NOVA_OBJECTS, 0, large, 0));
    tell("memory", nova_memory(6, 1, NOVA_READ), nova_memory(large << 12, 0, 0));
    tell("objects", nova_objects(7, 0, NOVA_PT_CALL), nova_objects(0, 0, large));
    tell("type_in, base_in", nova_type_in(range), nova_base_in(range));
    tell("order_in, rights_in", nova_order_in(range), nova_rights_in(range));
    tell("page_of", nova_page_of(0x5fff), nova_code_end_page - nova_code_page);
}

static void creations(void)
{
    tell("create_sm", nova_create_sm(SEMAPHORE, NOVA_OWN_PD, 1), nova_create_sm(FULL, NOVA_OWN_PD, 0xffffffff));
    tell("create_handlers", nova_create_handlers(STARTERS, NOVA_OWN_PD, CPUS, 0, 0), nova_create_handlers(STARTERS, NOVA_OWN_PD, 1, 0, 0));
    tell("create_domain", nova_create_domain(&domain), nova_create_domain(&domain));
    tell("create_handlers", nova_create_handlers(HANDLERS, DOMAIN, CPUS, stacks, sizeof *stacks), 0);
    tell("create_portals", nova_create_portals(PORTALS, HANDLERS, CPUS, 0, handler_entry), 0);
    tell("pt_ctrl", nova_pt_ctrl(PORTALS, 5), nova_pt_ctrl(SEMAPHORE, 5));
    tell("create_pd", nova_create_pd(SPARE, NOVA_OWN_PD, nova_memory(1, 0, NOVA_READ)), nova_create_pd(WATCH, NOVA_OWN_PD, 2));
    tell("create_ec", nova_create_ec(WATCH, NOVA_OWN_PD, NOVA_LOCAL, 0, (uint32_t)(watch_stack + sizeof watch_stack), 0),
        nova_create_ec(FREE, NOVA_OWN_PD, NOVA_LOCAL, large, 0, 0));
    tell("create_ec", nova_create_ec(FREE, NOVA_OWN_PD, (enum nova_kind)(large << 16), 0, 0, 0), 0);
    tell("create_pt", nova_create_pt(NOVA_OWN_EVENT_BASE + NOVA_RECALL, NOVA_OWN_PD, WATCH, NOVA_ALL_GROUPS - NOVA_QUAL, watch_entry), 0);
    tell("create_sc", nova_create_sc(FREE, NOVA_OWN_PD, NOVA_OWN_EC, large, 1),
        nova_create_sc(FREE, NOVA_OWN_PD, NOVA_OWN_EC, 1, large << 16));
    tell("create_sc", nova_create_sc(FREE, NOVA_OWN_PD, NOVA_OWN_EC, 1, null), nova_create_sc(FREE, NOVA_OWN_PD, NOVA_OWN_EC, 1, 2));
}

/* The domain is given its code, the stacks and a semaphore. */
static void gifts(void)
{
    struct nova_gift list[NOVA_ITEMS];
    uint32_t page = nova_page_of((uint32_t)stack), pages = nova_page_of((uint32_t)stacks);
    uint32_t number = nova_gifts_of_pages(list, 0, page + 1, page + 2, NOVA_READ | NOVA_WRITE);

    number = nova_gifts_of_pages(list, number, pages, pages + nova_page_of(sizeof stacks), NOVA_READ | NOVA_WRITE);
    tell("gifts_of_pages", number, nova_gifts_of_pages(list, number, 5, 15, NOVA_READ));
    list[number++] = (struct nova_gift){nova_objects(SEMAPHORE, 0, NOVA_SM_UP), SEMAPHORE};
    list[number++] = (struct nova_gift){nova_objects(SEMAPHORE, 0, NOVA_SM_UP | NOVA_SM_DOWN), THERE};
    tell("give_code", nova_give_code(&domain), 0);
    tell("give", nova_give(&domain, list, number), nova_give(&domain, list, large));
    tell("give", nova_give(&domain, list, null), 0);
    tell("give", nova_create_domain(&elsewhere), nova_give(&elsewhere, list, number));
}

static void messages(void)
{
    for (uint32_t i = 2; i < 20; i++)
        nova_delegate(i, NOVA_NULL, 0);
    nova_set_counts(0, 0);
    nova_set_windows(nova_objects(0, NOVA_MOST_ORDER, NOVA_ALL_RIGHTS), NOVA_NULL);
    tell("call", nova_call(PORTALS, NOVA_WAIT), nova_call(PORTALS + SECOND, NOVA_DONT_WAIT));
    tell("delegate", nova_delegate(0, nova_memory(1, 0, NOVA_READ), 1), nova_delegate(large, 1, 0));
    tell("translate", nova_translate(1, nova_objects(SEMAPHORE, 0, NOVA_SM_UP)), nova_translate(large, 1));
    nova_set_counts(3, 20);
    tell("call", nova_call(PORTALS, NOVA_DONT_WAIT), nova_words[NOVA_DATA]);
    tell("words_in, items_in", nova_words[NOVA_DATA + 1], nova_words[NOVA_DATA + 2]);
    tell("item", nova_words[NOVA_DATA + 3], nova_words[NOVA_DATA + 4]);
    tell("item", nova_item(0), nova_item(large));
    tell("delegate", null, nova_delegate(0, nova_memory(1, 0, NOVA_READ), large << 12));
    nova_set_counts(large << 8, 0);
    tell("set_counts", nova_call(PORTALS, NOVA_WAIT), nova_words[NOVA_COUNTS]);
    tell("reply", nova_reply(), 0);
}

static void lookups(void)
{
    uint32_t value = NOTHING;
    enum nova_status status = nova_lookup(nova_memory(1, 0, 0), &value);

    tell("lookup", status, value);
    status = nova_lookup(nova_objects(FREE, 0, 0), &value);
    tell("lookup", status, value);
    value = NOTHING;
    status = nova_lookup(NOVA_NULL, &value);
    tell("lookup", status, value);
    status = nova_sc_ctrl(NOVA_OWN_SC, &value);
    tell("sc_ctrl", status, value > 1000 && value < 100000);
    value = nova_own_turns();
    tell("own_turns", NOVA_SUCCESS, value > 1000 && value < 100000);
    value = NOTHING;
    status = nova_sc_ctrl(NOVA_OWN_EC, &value);
    tell("sc_ctrl", status, value);
    status = nova_revoke(nova_objects(SPARE, 0, 0), NOVA_OTHERS);
    nova_lookup(nova_objects(SPARE, 0, 0), &value);
    tell("revoke", status, value);
    status = nova_revoke(nova_objects(SPARE, 0, 0), NOVA_SELF);
    nova_lookup(nova_objects(SPARE, 0, 0), &value);
    tell("revoke", status, value);
    tell("hypercall", nova_hypercall((enum nova_number)99, 0, 0, 0, 0, 0, &value), value);
}

static void semaphores(void)
{
    tell("down", nova_down(SEMAPHORE), nova_down(DOMAIN));
    tell("down_with_deadline", nova_down_with_deadline(SEMAPHORE, 5), nova_down_with_deadline(FULL, 0));
    tell("up", nova_up(SEMAPHORE), nova_sm_ctrl(FULL, NOVA_UP, 0));
    tell("sm_ctrl", nova_sm_ctrl(FULL, NOVA_UP, 0), nova_sm_ctrl(SEMAPHORE, NOVA_DOWN, 0));
    tell("sm_ctrl", nova_sm_ctrl(SEMAPHORE, NOVA_DOWN_WITH_DEADLINE, 3), nova_sm_ctrl(SEMAPHORE, (enum nova_operation)3, 0));
    tell("ec_ctrl", nova_ec_ctrl(NOVA_OWN_EC), nova_ec_ctrl(SEMAPHORE));
}

static void threads(void)
{
    tell("start", nova_start(THREAD, SECOND, STARTERS + SECOND, EVENTS, thread_begins, stacks[SECOND] + sizeof *stacks, 2, 10),
        nova_down(SEMAPHORE));
    tell("start_in", nova_start_in(&domain, OTHER, SECOND, STARTERS + SECOND, OTHER_EVENTS, thread_begins, stack + sizeof stack, 2, 10),
        nova_down(SEMAPHORE));
}

/* The thread goes before main, and is over when main goes on. */
static void asserts(void)
{
    enum nova_status status = nova_start(FAILING, 0, STARTERS, LAST_EVENTS, failing_begins, failing_stack + sizeof failing_stack, 2, 100);

    tell("assert", status, nova_failed);
}

int main(void)
{
    ranges();
    creations();
    gifts();
    messages();
    lookups();
    semaphores();
    threads();
    asserts();
    return 0;
}
