/* What the driver of driver.c is given, and what it offers. */
#ifndef DRIVER_H
#define DRIVER_H

#include "nova.h"

/* Selectors, which mean the same in the driver's domain and in that of main. DRIVER_SOURCE is upped by the device at each sample. */
enum { DRIVER_SOURCE = NOVA_FIRST_SOURCE, DRIVER_SAMPLES = 32, DRIVER_LOCK = 33, DRIVER_CLOSED = 34 };

/* The device is gone when it has been silent for this many turns of its processor. */
enum { DRIVER_PATIENCE = 1000 };

/* The ring, a frame that main lends to the driver. */
enum { RING_SLOTS = 16 };

struct ring {
    volatile uint32_t used; /* how many samples wait */
    volatile uint32_t slots[RING_SLOTS];
} __attribute__((aligned(NOVA_PAGE_BYTES)));

/* What the driver keeps to itself, a page of its own. The thread alone writes `put` and `lost`, the handler alone `taken`. */
struct driver {
    struct ring *ring;
    volatile uint32_t put, taken, lost;
    volatile int is_closed;
} __attribute__((aligned(NOVA_PAGE_BYTES)));

extern struct driver driver;

/* Where the driver's thread begins. It takes the device's samples until the device is gone, and then ups DRIVER_CLOSED. */
extern void driver_begins(void);

/* The entry of a portal to the driver's handler. A call takes no words. It waits for a sample, and answers it as a word, or no word where the
   device is gone. */
extern void driver_take(void);

enum { SAMPLE = NOVA_DATA };

#endif
