/* A driver in a domain of its own. Its thread is woken by the device and puts samples into a ring; its handler, on another processor, takes
   them out for whoever calls. Both count what waits in the ring; built with RACE defined, without a lock. */
#include "driver.h"

struct driver driver;

NOVA_THREAD(driver_begins, serve_device);
NOVA_PORTAL(driver_take, serve_call);

static void must(enum nova_status status)
{
    if (status != NOVA_SUCCESS)
        __builtin_trap();
}

/* RV32I has no instruction that loads and stores at once. So `used` is loaded, added to and stored in three turns, and the other processor may
   have turns in between. */
static void count(uint32_t difference)
{
#ifndef RACE
    must(nova_down(DRIVER_LOCK));
#endif
    driver.ring->used += difference;
#ifndef RACE
    must(nova_up(DRIVER_LOCK));
#endif
}

static void put(uint32_t sample)
{
    if (driver.ring->used >= RING_SLOTS) {
        driver.lost++;
        return;
    }
    driver.ring->slots[driver.put % RING_SLOTS] = sample;
    driver.put++;
    count(1);
    must(nova_up(DRIVER_SAMPLES));
}

/* The deadline is the watchdog: once the device has begun, one that is silent for too long is gone. */
void serve_device(void)
{
    uint32_t sample = 1;

    must(nova_down(DRIVER_SOURCE));
    do
        put(sample++);
    while (nova_down_with_deadline(DRIVER_SOURCE, DRIVER_PATIENCE) == NOVA_SUCCESS);
    driver.is_closed = 1;
    must(nova_up(DRIVER_SAMPLES));
    must(nova_up(DRIVER_CLOSED));
}

void serve_call(uint32_t identifier)
{
    (void)identifier;
    must(nova_down(DRIVER_SAMPLES));
    if (driver.taken == driver.put) {
        must(nova_up(DRIVER_SAMPLES)); /* so that the next caller is told that the device is gone, too */
        nova_set_counts(0, 0);
        return;
    }
    nova_words[SAMPLE] = driver.ring->slots[driver.taken % RING_SLOTS];
    driver.taken++;
    count(-1u);
    nova_set_counts(1, 0);
}
