/* The guest that `build.sh --monitor` builds beside a monitor. Its memory is the upper half of RAM: the monitor reads and writes it there,
   and gives of it what it will. The guest's own address 0 is guest_memory[0], but its program has nothing below GUEST_BEGIN. What of a guest
   of `build.sh --image` begins where, its monitor says. */
#ifndef GUEST_H
#define GUEST_H

#include <stdint.h>

/* Set by build.sh. What stands for a number has it as its address. */
extern unsigned char guest_memory[];
extern char guest_bytes_symbol[] __asm__("guest_bytes");
extern char guest_entry_symbol[] __asm__("guest_entry");
extern char guest_code_end_symbol[] __asm__("guest_code_end");
extern char guest_stack_guard_symbol[] __asm__("guest_stack_guard");

/* How many bytes it has, whole pages. The guest's stack comes down from there. */
#define guest_bytes ((uint32_t)guest_bytes_symbol)

/* Where it begins. */
#define guest_entry ((uint32_t)guest_entry_symbol)

/* Where its code and constants end, a multiple of a page; from there on are its data. */
#define guest_code_end ((uint32_t)guest_code_end_symbol)

/* The page below its stack, which it isn't given, so that a stack that grows too large faults. */
#define guest_stack_guard ((uint32_t)guest_stack_guard_symbol)

/* Its program's first address. A fault below it is one of a null pointer. */
#define GUEST_BEGIN 0x1000u

/* The processor that this monitor is on, and its guest: with `build.sh --monitors N` each of them has one, from 0 to N - 1. boot_each.s
   stores it; a monitor that boot.s begins is on processor 0. */
extern const volatile uint32_t guest_processor_word __attribute__((weak));

static inline uint32_t guest_processor(void)
{
    return &guest_processor_word ? guest_processor_word : 0;
}

#endif
