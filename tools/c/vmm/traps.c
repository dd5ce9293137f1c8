/* Traps and interrupts of machine mode. */
#include "hart.h"

void trap(uint32_t cause, uint32_t value)
{
    uint32_t status = CSR.mstatus, vector = CSR.mtvec;

    CSR.mepc = PC;
    CSR.mcause = cause;
    CSR.mtval = value;
    CSR.mstatus = (status & MSTATUS_MIE ? MSTATUS_MPIE : 0) | (hart.privilege == MACHINE ? MSTATUS_MPP : 0);
    CSR.reserved = 0;
    hart.privilege = MACHINE;
    PC = (vector & ~3u) + (vector & 1 && cause & INTERRUPT ? 4 * (cause & ~INTERRUPT) : 0);
}

void trap_return(void)
{
    uint32_t status = CSR.mstatus;

    hart.privilege = (status & MSTATUS_MPP) == MSTATUS_MPP ? MACHINE : USER;
    CSR.mstatus = MSTATUS_MPIE | (status & MSTATUS_MPIE ? MSTATUS_MIE : 0);
    PC = CSR.mepc & ~3u;
}

/* External interrupts go first, then software interrupts, then those of the timer. */
static uint32_t first_of(uint32_t waiting)
{
    if (waiting >> VMM_EXTERNAL_INTERRUPT & 1)
        return VMM_EXTERNAL_INTERRUPT;
    return waiting >> VMM_SOFTWARE_INTERRUPT & 1 ? VMM_SOFTWARE_INTERRUPT : VMM_TIMER_INTERRUPT;
}

void take_interrupt(void)
{
    uint32_t waiting = hart.mip & CSR.mie;

    CSR.waiting = waiting;
    if (waiting && (hart.privilege == USER || CSR.mstatus & MSTATUS_MIE))
        trap(INTERRUPT | first_of(waiting), 0);
}
