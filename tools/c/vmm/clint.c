/* A CLINT of one hart: its software interrupt, and its timer. mtime can't be written. */
#include "vmm.h"

/* Registers, a word each, or two. */
enum { MSIP = 0, MTIMECMP = 0x4000, MTIME = 0xbff8, CLINT_BYTES = 0x10000, WORD = 4 };

static uint32_t msip;
static uint64_t mtimecmp = ~0ull;

static uint32_t half(uint64_t number, uint32_t offset)
{
    return (uint32_t)(offset & WORD ? number >> 32 : number);
}

static int load(uint32_t offset, uint32_t width, uint32_t *value)
{
    if (offset == MSIP)
        *value = msip;
    else if ((offset & ~(uint32_t)WORD) == MTIMECMP)
        *value = half(mtimecmp, offset);
    else if ((offset & ~(uint32_t)WORD) == MTIME)
        *value = half(vmm_time(), offset);
    return width == WORD;
}

static int store(uint32_t offset, uint32_t width, uint32_t value)
{
    if (width != WORD)
        return 0;
    if (offset == MSIP) {
        msip = value & 1;
        vmm_set_interrupt(VMM_SOFTWARE_INTERRUPT, (int)msip);
    } else if ((offset & ~(uint32_t)WORD) == MTIMECMP) {
        mtimecmp = offset & WORD ? (uint64_t)value << 32 | (uint32_t)mtimecmp : mtimecmp >> 32 << 32 | value;
        vmm_set_timer(mtimecmp);
    }
    return 1;
}

const struct vmm_device vmm_clint = {0x02000000, CLINT_BYTES, 0, load, store};
