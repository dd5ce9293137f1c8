/* What the monitor of timer.c does at an ecall of its guest, besides PUT_CHAR of console.h, and the ticks that it hands to it. */
#ifndef TIMER_H
#define TIMER_H

#include <stdint.h>

enum {
    SET_TIMER = 1, /* x10 is the address of the function that is called at each tick */
    RESUME = 2,    /* x10 is the address of a frame: the guest goes on with its registers, and ticks come again */
};

/* The registers of what a tick interrupted. The monitor puts them below the stack pointer, and the function is called there with the
   frame's address. It may RESUME this frame, or another. A tick that comes before that is passed over. */
struct frame {
    uint32_t pc;
    uint32_t x[32]; /* x[0] is free */
};

#endif
