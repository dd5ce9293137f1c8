/* The machine's time. main waits at the alarm's semaphore, with the moment of the next recall as its deadline. Deadlines are by the
   processor's turns, of which the machine's time has only the guest's, so main looks again when one is over. Only the handler of the
   guest's exits writes what stands here. main may come between two of its stores, and recall the guest for nothing; but each change is
   followed by an up, after which main looks again. */
#include "hart.h"
#include "must.h"

#define NEVER (~0ull)
enum { FOREVER = 0xffffffff };

static uint64_t slept;                  /* the time that the guest waited, which took no turns */
static uint64_t timer = NEVER;          /* when the timer interrupt begins to pend */
static volatile uint64_t alarm = NEVER; /* when main is to recall the guest */
static volatile int ended;

uint64_t vmm_time(void)
{
    uint32_t turns = 0;

    must(nova_sc_ctrl(GUEST_TURNS, &turns), "sc_ctrl");
    return slept + turns;
}

static void set_alarm(uint64_t moment)
{
    alarm = moment;
    must(nova_up(ALARM), "up");
}

void clock_update(void)
{
    int pends = vmm_time() >= timer;

    vmm_set_interrupt(VMM_TIMER_INTERRUPT, pends);
    set_alarm(pends ? NEVER : timer);
}

void vmm_set_timer(uint64_t moment)
{
    timer = moment;
    clock_update();
}

void clock_recall_in(uint32_t turns)
{
    set_alarm(vmm_time() + turns);
}

int clock_sleep(void)
{
    uint64_t now = vmm_time();

    if (timer == NEVER)
        return 0;
    if (timer > now)
        slept += timer - now;
    clock_update();
    return 1;
}

void clock_begin(void)
{
    must(nova_create_sm(ALARM, NOVA_OWN_PD, 0), "create_sm");
}

void clock_end(void)
{
    ended = 1;
    must(nova_up(ALARM), "up");
}

/* For how long main waits at most. */
static uint32_t left(void)
{
    uint64_t moment = alarm, now = vmm_time();

    return moment <= now ? 0 : moment - now < FOREVER ? (uint32_t)(moment - now) : FOREVER;
}

void clock_watch(void)
{
    while (!ended) {
        uint32_t ticks = left();

        if (ticks != FOREVER && nova_down_with_deadline(ALARM, ticks) == NOVA_SUCCESS)
            continue;
        if (ticks != FOREVER && left() == 0)
            must(nova_ec_ctrl(GUEST_CPU), "ec_ctrl");
        if (ticks == FOREVER || left() == 0)
            must(nova_down(ALARM), "down"); /* to the next change: a recall is followed by one */
    }
}
