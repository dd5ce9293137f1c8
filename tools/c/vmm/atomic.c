/* The extension A: words of the guest's RAM, on a machine of one hart. */
#include "hart.h"

enum { WORD = 2 }; /* funct3 */

/* The operation, in the highest five bits. */
enum {
    AMOADD = 0,
    AMOSWAP = 1,
    LR = 2,
    SC = 3,
    AMOXOR = 4,
    AMOOR = 8,
    AMOAND = 12,
    AMOMIN = 16,
    AMOMAX = 20,
    AMOMINU = 24,
    AMOMAXU = 28,
};

static int is_one(uint32_t instruction)
{
    uint32_t kind = instruction >> 27;

    if (funct3_of(instruction) != WORD)
        return 0;
    return kind == LR ? rs2_of(instruction) == 0 : kind == AMOSWAP || kind == SC || kind % 4 == 0;
}

/* What an instruction but lr and sc stores. */
static uint32_t combined(uint32_t kind, uint32_t old, uint32_t operand)
{
    switch (kind) {
    case AMOADD: return old + operand;
    case AMOSWAP: return operand;
    case AMOXOR: return old ^ operand;
    case AMOOR: return old | operand;
    case AMOAND: return old & operand;
    case AMOMIN: return (int32_t)old < (int32_t)operand ? old : operand;
    case AMOMAX: return (int32_t)old > (int32_t)operand ? old : operand;
    case AMOMINU: return old < operand ? old : operand;
    default: return old > operand ? old : operand;
    }
}

static void fault(uint32_t kind, uint32_t address)
{
    if (address % 4)
        trap(kind == LR ? MISALIGNED_LOAD : MISALIGNED_STORE, address);
    else
        trap(kind == LR ? LOAD_FAULT : STORE_FAULT, address);
}

/* What goes to rd. */
static uint32_t done(uint32_t kind, uint32_t address, uint32_t *word, uint32_t operand)
{
    uint32_t old = *word;
    int succeeds = CSR.reserved == address;

    if (kind == LR) {
        CSR.reserved = address;
        return old;
    }
    if (kind == SC) {
        CSR.reserved = 0;
        if (succeeds)
            *word = operand;
        return !succeeds;
    }
    *word = combined(kind, old, operand);
    return old;
}

void atomic_instruction(uint32_t instruction)
{
    uint32_t kind = instruction >> 27, address = nova_register(rs1_of(instruction)), *word = guest_word(address);

    if (!is_one(instruction)) {
        trap(ILLEGAL, instruction);
        return;
    }
    if (!word) {
        fault(kind, address);
        return;
    }
    if (kind < AMOMIN)
        patch(instruction);
    set_register(rd_of(instruction), done(kind, address, word, nova_register(rs2_of(instruction))));
    PC += 4;
}
