/* Zicsr: control and status registers. There is no physical memory protection, and counters can't be written. */
#include "hart.h"

/* Registers. */
enum {
    MSTATUS = 0x300,
    MISA = 0x301,
    MIE = 0x304,
    MTVEC = 0x305,
    MCOUNTEREN = 0x306,
    MSTATUSH = 0x310,
    MCOUNTINHIBIT = 0x320,
    MSCRATCH = 0x340,
    MEPC = 0x341,
    MCAUSE = 0x342,
    MTVAL = 0x343,
    MIP = 0x344,
    PMP = 0x3a0, /* pmpcfg0 to pmpaddr63 */
    PMP_END = 0x3f0,
    MCYCLE = 0xb00,
    MINSTRET = 0xb02,
    CYCLE = 0xc00,
    TIME = 0xc01,
    INSTRET = 0xc02,
    UPPER_HALF = 0x80, /* of a counter, from its lower one */
    MVENDORID = 0xf11, /* and marchid, mimpid, mhartid, mconfigptr */
    MCONFIGPTR = 0xf15,
};

enum { CSRRW = 1, CSRRS = 2, IMMEDIATE = 4 };
enum { ENABLED = 1u << VMM_SOFTWARE_INTERRUPT | 1u << VMM_TIMER_INTERRUPT | 1u << VMM_EXTERNAL_INTERRUPT, VECTORED = 1, MODE = 3, COUNTERS = 7 };

#define RV32IMAU 0x40101101u

/* A counter's half. User mode may read those that mcounteren has. */
static int counter_read(uint32_t number, uint32_t *value)
{
    uint32_t counter = number & ~(uint32_t)UPPER_HALF;
    uint64_t time;

    if (counter != MCYCLE && counter != MINSTRET && !(counter >= CYCLE && counter <= INSTRET))
        return 0;
    if (hart.privilege == USER && !(hart.mcounteren >> (counter - CYCLE) & 1))
        return 0;
    time = vmm_time();
    *value = (uint32_t)(number & UPPER_HALF ? time >> 32 : time);
    return 1;
}

/* Whether there is such a register, and its value. */
static int csr_read(uint32_t number, uint32_t *value)
{
    *value = 0;
    switch (number) {
    case MSTATUS: *value = CSR.mstatus; return 1;
    case MISA: *value = RV32IMAU; return 1;
    case MIE: *value = CSR.mie; return 1;
    case MTVEC: *value = CSR.mtvec; return 1;
    case MCOUNTEREN: *value = hart.mcounteren; return 1;
    case MSCRATCH: *value = CSR.mscratch; return 1;
    case MEPC: *value = CSR.mepc; return 1;
    case MCAUSE: *value = CSR.mcause; return 1;
    case MTVAL: *value = CSR.mtval; return 1;
    case MIP: *value = hart.mip; return 1;
    case MSTATUSH: case MCOUNTINHIBIT: return 1;
    default:
        return (number >= PMP && number < PMP_END) || (number >= MVENDORID && number <= MCONFIGPTR) || counter_read(number, value);
    }
}

/* A register that can't be written, or not so, stays. */
static void csr_write(uint32_t number, uint32_t value)
{
    switch (number) {
    case MSTATUS: CSR.mstatus = (value & (MSTATUS_MIE | MSTATUS_MPIE)) | ((value & MSTATUS_MPP) == MSTATUS_MPP ? MSTATUS_MPP : 0); break;
    case MIE: CSR.mie = value & ENABLED; break;
    case MTVEC: CSR.mtvec = (value & MODE) <= VECTORED ? value : CSR.mtvec; break;
    case MCOUNTEREN: hart.mcounteren = value & COUNTERS; break;
    case MSCRATCH: CSR.mscratch = value; break;
    case MEPC: CSR.mepc = value & ~3u; break;
    case MCAUSE: CSR.mcause = value; break;
    case MTVAL: CSR.mtval = value; break;
    }
}

static uint32_t combined(uint32_t kind, uint32_t old, uint32_t operand)
{
    return kind == CSRRW ? operand : kind == CSRRS ? old | operand : old & ~operand;
}

void csr_instruction(uint32_t instruction)
{
    uint32_t number = instruction >> 20, source = rs1_of(instruction), kind = funct3_of(instruction) & 3, old;
    uint32_t operand = funct3_of(instruction) & IMMEDIATE ? source : nova_register(source);
    int writes = kind == CSRRW || source, is_read_only = number >> 10 == 3;

    if (!kind || (number >> 8 & 3) > hart.privilege || (writes && is_read_only) || !csr_read(number, &old)) {
        trap(ILLEGAL, instruction);
        return;
    }
    if (number == MSTATUS || (number >= MSCRATCH && number <= MTVAL))
        patch(instruction);
    if (writes)
        csr_write(number, combined(kind, old, operand));
    set_register(rd_of(instruction), old);
    PC += 4;
}
