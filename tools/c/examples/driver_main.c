/* A driver and its two clients. main makes the driver's domain on processor 0 and gives it what it needs, and no more: the program's code, a
   page of its own, the frame of the ring, its stacks, and semaphores. The clients run on processor 1, where the driver has a handler, since
   a call never crosses processors. */
#include "driver.h"
#include "must.h"

/* Selectors. The driver's domain is followed by three for nova_give, each thread by its scheduling context. */
enum { DONE = 35, STARTERS = 36, DOMAIN = 40, HANDLER = 44, TAKE = 45, DRIVER = 46, CLIENTS = 48, EVENTS = 64 };

enum { CPUS = 2, NUMBER = 2, OF_DRIVER = 0, OF_CLIENTS = 1 };

NOVA_STACK(driver_stack, 1024);
NOVA_STACK(handler_stack, 1024);
NOVA_STACKS(stacks, NUMBER, 1024);

static struct ring ring;
static const struct nova_domain domain = {.pd = DOMAIN, .cpu = OF_DRIVER, .starter = STARTERS + OF_DRIVER};
static volatile uint32_t samples, sum;

NOVA_THREAD(client_begins, client);

/* A gift of the pages of a variable, without the guard page of a stack. */
static uint32_t add_pages(struct nova_gift *gifts, uint32_t number, const void *from, uint32_t bytes)
{
    uint32_t page = nova_page_of((uint32_t)from);

    return nova_gifts_of_pages(gifts, number, page, page + nova_page_of(bytes), NOVA_READ | NOVA_WRITE);
}

static uint32_t add_semaphore(struct nova_gift *gifts, uint32_t number, nova_selector semaphore, uint32_t rights)
{
    gifts[number] = (struct nova_gift){nova_objects(semaphore, 0, rights), semaphore};
    return number + 1;
}

static void make_domain(void)
{
    struct nova_gift gifts[NOVA_ITEMS];
    uint32_t number = 0;

    must(nova_create_domain(&domain), "create_domain");
    must(nova_give_code(&domain), "give_code");
    number = add_pages(gifts, number, &driver, sizeof driver);
    number = add_pages(gifts, number, &ring, sizeof ring);
    number = add_pages(gifts, number, driver_stack + NOVA_PAGE_BYTES, sizeof driver_stack - NOVA_PAGE_BYTES);
    number = add_pages(gifts, number, handler_stack + NOVA_PAGE_BYTES, sizeof handler_stack - NOVA_PAGE_BYTES);
    number = add_semaphore(gifts, number, DRIVER_SOURCE, NOVA_SM_DOWN);
    number = add_semaphore(gifts, number, DRIVER_SAMPLES, NOVA_SM_UP | NOVA_SM_DOWN);
    number = add_semaphore(gifts, number, DRIVER_LOCK, NOVA_SM_UP | NOVA_SM_DOWN);
    number = add_semaphore(gifts, number, DRIVER_CLOSED, NOVA_SM_UP);
    must(nova_give(&domain, gifts, number), "give");
}

static void start_driver(void)
{
    driver.ring = &ring;
    must(nova_create_ec(HANDLER, DOMAIN, NOVA_LOCAL, OF_CLIENTS, (uint32_t)(handler_stack + sizeof handler_stack), 0), "create_ec");
    must(nova_create_pt(TAKE, NOVA_OWN_PD, HANDLER, 0, driver_take), "create_pt");
    must(nova_start_in(&domain, DRIVER, OF_DRIVER, STARTERS + OF_DRIVER, EVENTS, driver_begins, driver_stack + sizeof driver_stack, 2, 100),
        "start_in");
}

/* Each client adds up what it gets, and then, with the lock, what both got: on one processor, too, each may be cut short. */
void client(void)
{
    uint32_t mine = 0, of_mine = 0;

    for (;;) {
        nova_set_counts(0, 0);
        must(nova_call(TAKE, NOVA_WAIT), "call");
        if (nova_words_in(nova_words[NOVA_COUNTS]) == 0)
            break;
        mine++;
        of_mine += nova_words[SAMPLE];
    }
    must(nova_down(DRIVER_LOCK), "down");
    samples += mine;
    sum += of_mine;
    must(nova_up(DRIVER_LOCK), "up");
    must(nova_up(DONE), "up");
}

static void put_number(const char *what, uint32_t number)
{
    put_text(what);
    put_hex(number);
    put_char('\n');
}

int main(void)
{
    must(nova_create_sm(DRIVER_SAMPLES, NOVA_OWN_PD, 0), "create_sm");
    must(nova_create_sm(DRIVER_LOCK, NOVA_OWN_PD, 1), "create_sm");
    must(nova_create_sm(DRIVER_CLOSED, NOVA_OWN_PD, 0), "create_sm");
    must(nova_create_sm(DONE, NOVA_OWN_PD, 0), "create_sm");
    must(nova_create_handlers(STARTERS, NOVA_OWN_PD, CPUS, 0, 0), "create_handlers");
    make_domain();
    start_driver();
    for (uint32_t i = 0; i < NUMBER; i++)
        must(nova_start(CLIENTS + 2 * i, OF_CLIENTS, STARTERS + OF_CLIENTS, EVENTS + 16 + 16 * i, client_begins,
                 stacks[i] + sizeof stacks[i], 1, 50), "start");
    must(nova_down(DRIVER_CLOSED), "down");
    for (uint32_t i = 0; i < NUMBER; i++)
        must(nova_down(DONE), "down");
    put_number("samples ", samples);
    put_number("sum     ", sum);
    put_number("used    ", ring.used);
    return (int)ring.used;
}
