/* SiFive's test finisher, by which a guest ends its machine. */
#include "vmm.h"

/* What is stored to its only register, in the lower half. */
enum { FAIL = 0x3333, PASS = 0x5555, RESET = 0x7777 };

static int load(uint32_t offset, uint32_t width, uint32_t *value)
{
    (void)offset;
    *value = 0;
    return width >= 2;
}

static int store(uint32_t offset, uint32_t width, uint32_t value)
{
    if (offset || width < 2)
        return width >= 2;
    switch (value & 0xffff) {
    case FAIL: vmm_end("the guest fails with", value >> 16);
    case PASS: vmm_end("the guest powers off with", value);
    case RESET: vmm_end("the guest resets the machine with", value);
    }
    return 1;
}

const struct vmm_device vmm_finisher = {0x00100000, NOVA_PAGE_BYTES, 0, load, store};
