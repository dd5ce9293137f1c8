/* The guest's hart: what exits.c, which answers its exits, and the files of its instructions share. */
#ifndef VMM_HART_H
#define VMM_HART_H

#include "vmm.h"

/* Privilege modes. */
enum { USER = 0, MACHINE = 3 };

/* Fields of mstatus. */
enum { MSTATUS_MIE = 8, MSTATUS_MPIE = 0x80, MSTATUS_MPP = 0x1800 };

/* Causes of traps. That of an interrupt is its number and INTERRUPT. */
#define INTERRUPT 0x80000000u
enum {
    MISALIGNED_JUMP = 0,
    FETCH_FAULT = 1,
    ILLEGAL = 2,
    BREAKPOINT = 3,
    MISALIGNED_LOAD = 4,
    LOAD_FAULT = 5,
    MISALIGNED_STORE = 6,
    STORE_FAULT = 7,
    ECALL_OF_USER = 8,
    ECALL_OF_MACHINE = 11,
};

/* Major opcodes. */
enum { OPCODE_FENCE = 0x0f, OPCODE_AMO = 0x2f, OPCODE_OP = 0x33, OPCODE_SYSTEM = 0x73 };

/* The fields of an instruction. */
static inline uint32_t opcode_of(uint32_t instruction)
{
    return instruction & 0x7f;
}

static inline uint32_t rd_of(uint32_t instruction)
{
    return instruction >> 7 & 31;
}

static inline uint32_t funct3_of(uint32_t instruction)
{
    return instruction >> 12 & 7;
}

static inline uint32_t rs1_of(uint32_t instruction)
{
    return instruction >> 15 & 31;
}

static inline uint32_t rs2_of(uint32_t instruction)
{
    return instruction >> 20 & 31;
}

/* What of the hart only the monitor writes: its mode, mip, and which counters user mode may read. */
struct hart {
    uint32_t privilege, mip, mcounteren;
};

/* Control and status registers. They lie in the second half of a page, which patches.c gives the guest to read and write: whatever it
   writes there, the monitor takes no value for more than what its own guest may set. */
struct csrs {
    uint32_t mstatus, mie, mtvec, mscratch, mepc, mcause, mtval;
    uint32_t waiting;  /* the interrupts that pend and are enabled in mie, and wait for mstatus to allow them */
    uint32_t reserved; /* the address of the last lr, or 0 */
    uint32_t saved[6]; /* registers that a patch puts aside */
};

extern struct hart hart;
extern volatile unsigned char csr_page[];

#define CSR_OFFSET (NOVA_PAGE_BYTES / 2)
#define CSR (*(volatile struct csrs *)(csr_page + CSR_OFFSET))

/* The guest's pc. */
#define PC (nova_words[NOVA_EXIT_PC])

static inline void set_register(uint32_t number, uint32_t value)
{
    if (number)
        nova_register(number) = value;
}

/* The word at an address of the guest's RAM, or null where there is none. */
static inline uint32_t *guest_word(uint32_t address)
{
    return address - VMM_RAM < guest_bytes && address % 4 == 0 ? (uint32_t *)(guest_memory + (address - VMM_RAM)) : 0;
}

/* traps.c: the guest goes on in its trap handler; where it went on before; and in that of an interrupt, if one may come. */
void trap(uint32_t cause, uint32_t value);
void trap_return(void);
void take_interrupt(void);

/* clock.c: makes the clock's semaphore; recalls the guest each time that a moment has come, until the machine ends, and is told of that;
   has mip say whether the timer interrupt pends; recalls the guest in so many turns; has the guest sleep up to the timer's moment, and
   answers whether there is one. */
void clock_begin(void);
void clock_watch(void);
void clock_end(void);
void clock_update(void);
void clock_recall_in(uint32_t turns);
int clock_sleep(void);

/* zicsr.c, atomic.c, muldiv.c: an instruction is done, or traps. */
void csr_instruction(uint32_t instruction);
void atomic_instruction(uint32_t instruction);
void muldiv_instruction(uint32_t instruction);

/* patches.c, which may be left out: before the guest begins; the instruction at pc was an exit, and may be overwritten; whether an address
   is in a patch; whether the exit is one that a patch makes, behind which pc is then. */
void patches_begin(void);
void patch(uint32_t instruction);
int in_patch(uint32_t address);
int patch_exit(void);

/* Selectors of the guest's virtual CPU, and of its scheduling context. */
enum { GUEST_CPU = 34, GUEST_TURNS = 35, ALARM = 36 };

#endif
