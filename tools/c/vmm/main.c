/* The monitor as a program: the devices of its machine. */
#include "vmm.h"

static const struct vmm_device *const devices[] = {&vmm_clint, &vmm_uart, &vmm_finisher};

int main(void)
{
    vmm_run(devices, sizeof devices / sizeof *devices);
    return 0;
}
