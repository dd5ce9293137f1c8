/* vmm: a monitor under which the kernel of an operating system runs as a guest, as a library. This is what a device, and the program that
   says which devices there are, need of it; main.c is such a program.

   The machine is QEMU's `virt` without firmware, as far as main.c has its devices: one hart of RV32IMA with machine and user mode, and RAM
   at VMM_RAM, where the guest begins in machine mode, with 0 in a0, and in a1 the address of its device tree, which lies in the last page
   of its RAM. */
#ifndef VMM_H
#define VMM_H

#include "guest.h"
#include "nova.h"

/* Where the guest's memory, guest_bytes of it, begins for the guest. */
#define VMM_RAM 0x80000000u

/* Interrupts of machine mode, as mip, mie and mcause number them. */
enum vmm_interrupt {
    VMM_SOFTWARE_INTERRUPT = 3,
    VMM_TIMER_INTERRUPT = 7,
    VMM_EXTERNAL_INTERRUPT = 11,
};

/* A device: the registers that a guest finds from an address on, where it has no memory. */
struct vmm_device {
    uint32_t address, bytes;

    /* Called before the guest's first instruction, where it is not null. */
    void (*begin)(void);

    /* A load or store of 1, 2 or 4 bytes, the width, at an offset below `bytes` that is a multiple of the width. The answer is whether
       there is a register for it: where there is none, the guest has an access fault. A load leaves the register's value in *value, of
       which the guest has as many bytes as it loads. */
    int (*load)(uint32_t offset, uint32_t width, uint32_t *value);
    int (*store)(uint32_t offset, uint32_t width, uint32_t value);
};

/* Runs the guest on a machine with these devices, no two of which share an address, until the machine ends. */
void vmm_run(const struct vmm_device *const devices[], uint32_t count);

/* What follows is for devices, which are called while the guest waits. */

/* The machine's time, in units of 100 ns: the turns that the guest and its exits took, and what it slept. No other guest changes it. */
uint64_t vmm_time(void);

/* Has the timer interrupt pend from a moment of the machine's time on, and not before. */
void vmm_set_timer(uint64_t moment);

/* Has another interrupt pend, or not. */
void vmm_set_interrupt(enum vmm_interrupt interrupt, int pends);

/* Gives the guest a page of NOVA_PAGES at an address of its own, a multiple of 4,096, with enum nova_rights: from then on its loads, or
   stores, of that page are no exits. */
void vmm_give(const volatile void *page, uint32_t address, uint32_t rights);

/* Ends the machine: says why, with a word, on the console, and comes back neither to the device nor to the guest. */
void vmm_end(const char *why, uint32_t word) __attribute__((noreturn));

/* The devices of the library. */
extern const struct vmm_device vmm_uart;     /* a 16550 at 0x10000000, which writes to the console */
extern const struct vmm_device vmm_clint;    /* the timer of a CLINT at 0x2000000 */
extern const struct vmm_device vmm_finisher; /* SiFive's test finisher at 0x100000, which ends the machine */

/* What the guest reads from the 16550, up to a zero: nothing where no file of the program defines it. */
extern const unsigned char vmm_input[] __attribute__((weak));

#endif
