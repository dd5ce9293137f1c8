/* Patches, an option: without this file each instruction of A, M and Zicsr is an exit.

   An instruction that made an exit twice is overwritten in the guest's memory: by a load or a store of the register's word in the page of
   the CSRs, where that does the same, or by a jump to a patch. A patch does what the instruction does by instructions that nova executes,
   with registers that it puts aside, and jumps back behind it. It asks for no privilege: with patches the guest's user mode has the CSRs.
   A jump reaches 1 MiB: one zone of patches lies right below the guest's RAM, and another one in it, PATCH_ZONE bytes from its beginning, if the
   program is built with such a number; the guest's device tree has to reserve these 32 KiB. Where neither is near enough, an instruction
   stays an exit.

   A guest that loads its own code sees what is there now. One that runs a copy of it, as U-Boot does, has to do without patches. */
#include <stddef.h>
#include "hart.h"

#ifndef PATCH_ZONE
#define PATCH_ZONE 0
#endif

enum { ZONE_PAGES = 8, ZONE_WORDS = ZONE_PAGES * NOVA_PAGE_BYTES / 4, LONGEST = 40, SEEN = 1024, SAVED = 6 };

/* Where the page of the CSRs is for the guest, and its second half, by an offset from x0. */
#define CSR_PAGE 0xfffff000u
#define OFFSET(field) (CSR_OFFSET + (uint32_t)offsetof(struct csrs, field))

/* A zone: where it lies for the guest and for the monitor, and how many words of it are used. */
struct zone {
    uint32_t address, *words, used;
};

static NOVA_PAGES(below, ZONE_PAGES);

static struct zone zones[] = {
    {VMM_RAM - ZONE_PAGES * NOVA_PAGE_BYTES, (uint32_t *)below, 0},
    {VMM_RAM + PATCH_ZONE, (uint32_t *)(guest_memory + PATCH_ZONE), 0},
};
enum { ZONES = PATCH_ZONE ? 2 : 1 };
static struct zone *zone; /* that of the patch that is made */

/* Where the last exits were that may be patched. */
static uint32_t seen[SEEN];

/* Instructions, by the kinds of their funct3. */
enum { ADD = 0, SLL = 1, SLTU = 3, SRL = 5, XOR = 4, OR = 6, AND = 7, BEQ = 0, BNE = 1, BGEU = 7 };

static uint32_t load(uint32_t target, uint32_t base, uint32_t offset)
{
    return offset << 20 | base << 15 | 2 << 12 | target << 7 | 0x03;
}

static uint32_t store(uint32_t source, uint32_t base, uint32_t offset)
{
    return (offset >> 5 & 127) << 25 | source << 20 | base << 15 | 2 << 12 | (offset & 31) << 7 | 0x23;
}

static uint32_t with_register(uint32_t kind, uint32_t target, uint32_t a, uint32_t b)
{
    return b << 20 | a << 15 | kind << 12 | target << 7 | 0x33;
}

static uint32_t with_number(uint32_t kind, uint32_t target, uint32_t a, uint32_t number)
{
    return number << 20 | a << 15 | kind << 12 | target << 7 | 0x13;
}

static uint32_t move(uint32_t target, uint32_t source)
{
    return with_number(ADD, target, source, 0);
}

static uint32_t branch(uint32_t kind, uint32_t a, uint32_t b, uint32_t distance)
{
    return (distance >> 12 & 1) << 31 | (distance >> 5 & 63) << 25 | b << 20 | a << 15 | kind << 12 | (distance >> 1 & 15) << 8 |
           (distance >> 11 & 1) << 7 | 0x63;
}

static uint32_t jump(uint32_t distance)
{
    return (distance >> 20 & 1) << 31 | (distance >> 1 & 1023) << 21 | (distance >> 11 & 1) << 20 | (distance >> 12 & 255) << 12 | 0x6f;
}

static void emit(uint32_t word)
{
    zone->words[zone->used++] = word;
}

/* The registers that a patch puts aside: such as the instruction doesn't name. */
static uint32_t aside[SAVED], asides;

static void put_aside(uint32_t count, uint32_t a, uint32_t b, uint32_t c)
{
    asides = 0;
    for (uint32_t i = 5; asides < count; i++)
        if (i != a && i != b && i != c) {
            emit(store(i, 0, OFFSET(saved) + 4 * asides));
            aside[asides++] = i;
        }
}

static void put_back(void)
{
    for (uint32_t i = 0; i < asides; i++)
        emit(load(aside[i], 0, OFFSET(saved) + 4 * i));
}

static void jump_back(void)
{
    put_back();
    emit(jump(PC + 4 - (zone->address + 4 * zone->used)));
}

static void load_reserved_patch(uint32_t target, uint32_t address)
{
    asides = 0;
    emit(store(address, 0, OFFSET(reserved)));
    emit(load(target, address, 0));
    jump_back();
}

static void store_conditional_patch(uint32_t target, uint32_t address, uint32_t operand)
{
    put_aside(2, target, address, operand);
    emit(load(aside[0], 0, OFFSET(reserved)));
    emit(store(0, 0, OFFSET(reserved)));
    emit(with_number(ADD, aside[1], 0, 1));
    emit(branch(BNE, aside[0], address, 12));
    emit(store(operand, address, 0));
    emit(with_number(ADD, aside[1], 0, 0));
    emit(move(target, aside[1]));
    jump_back();
}

static void swap_patch(uint32_t target, uint32_t address, uint32_t operand)
{
    put_aside(1, target, address, operand);
    emit(load(aside[0], address, 0));
    emit(store(operand, address, 0));
    emit(move(target, aside[0]));
    jump_back();
}

static void combine_patch(uint32_t kind, uint32_t target, uint32_t address, uint32_t operand)
{
    put_aside(2, target, address, operand);
    emit(load(aside[0], address, 0));
    emit(with_register(kind, aside[1], aside[0], operand));
    emit(store(aside[1], address, 0));
    emit(move(target, aside[0]));
    jump_back();
}

/* amoadd, amoswap, lr, sc, amoxor, amoor and amoand, by the highest five bits. */
static int atomic_patch(uint32_t kind, uint32_t target, uint32_t address, uint32_t operand)
{
    switch (kind) {
    case 0: combine_patch(ADD, target, address, operand); return 1;
    case 1: swap_patch(target, address, operand); return 1;
    case 2: load_reserved_patch(target, address); return 1;
    case 3: store_conditional_patch(target, address, operand); return 1;
    case 4: combine_patch(XOR, target, address, operand); return 1;
    case 8: combine_patch(OR, target, address, operand); return 1;
    case 12: combine_patch(AND, target, address, operand); return 1;
    default: return 0;
    }
}

/* mul and mulhu, bit by bit of the lesser operand, which is in the register that was put aside first, the other one in the second. */
static void operands(uint32_t a, uint32_t b)
{
    emit(move(aside[0], a));
    emit(move(aside[1], b));
    emit(branch(BGEU, b, a, 12));
    emit(move(aside[0], b));
    emit(move(aside[1], a));
}

static void next_bit(uint32_t loop)
{
    emit(with_number(SRL, aside[0], aside[0], 1));
    emit(branch(BNE, aside[0], 0, 4 * (loop - zone->used)));
}

static void multiply_patch(uint32_t target, uint32_t a, uint32_t b)
{
    uint32_t loop, other, bit, sum;

    put_aside(4, target, a, b);
    other = aside[1], bit = aside[2], sum = aside[3];
    operands(a, b);
    emit(move(sum, 0));
    loop = zone->used;
    emit(with_number(AND, bit, aside[0], 1));
    emit(branch(BEQ, bit, 0, 8));
    emit(with_register(ADD, sum, sum, other));
    emit(with_number(SLL, other, other, 1));
    next_bit(loop);
    emit(move(target, sum));
    jump_back();
}

static void multiply_high_patch(uint32_t target, uint32_t a, uint32_t b)
{
    uint32_t loop, other, other_high, bit, sum, sum_high;

    put_aside(6, target, a, b);
    other = aside[1], bit = aside[2], sum = aside[3], other_high = aside[4], sum_high = aside[5];
    operands(a, b);
    emit(move(other_high, 0));
    emit(move(sum, 0));
    emit(move(sum_high, 0));
    loop = zone->used;
    emit(with_number(AND, bit, aside[0], 1));
    emit(branch(BEQ, bit, 0, 20));
    emit(with_register(ADD, sum, sum, other));
    emit(with_register(SLTU, bit, sum, other));
    emit(with_register(ADD, sum_high, sum_high, other_high));
    emit(with_register(ADD, sum_high, sum_high, bit));
    emit(with_number(SRL, bit, other, 31));
    emit(with_number(SLL, other, other, 1));
    emit(with_number(SLL, other_high, other_high, 1));
    emit(with_register(OR, other_high, other_high, bit));
    next_bit(loop);
    emit(move(target, sum_high));
    jump_back();
}

static int multiplication_patch(uint32_t kind, uint32_t target, uint32_t a, uint32_t b)
{
    if (kind == 0)
        multiply_patch(target, a, b);
    else
        multiply_high_patch(target, a, b);
    return 1;
}

/* Behind what is written to mstatus: an interrupt that waited may come now, by an exit, which finds behind it where the guest goes on. */
static void status_written(void)
{
    emit(load(aside[0], 0, OFFSET(waiting)));
    emit(branch(BEQ, aside[0], 0, 4 * (asides + 3)));
    put_back();
    emit(0);
    emit(PC + 4);
    jump_back();
}

/* mstatus is written, or bits of it are set or cleared; `kind` is funct3, of which 4 says that the source is a number. */
static int status_patch(uint32_t kind, uint32_t target, uint32_t source)
{
    uint32_t operand = kind & 4 ? 0 : source;

    put_aside(3, target, operand, 0);
    emit(load(aside[0], 0, OFFSET(mstatus)));
    if (kind & 4)
        emit(with_number(ADD, operand = aside[1], 0, source));
    if ((kind & 3) == 2) {
        emit(with_register(OR, aside[2], aside[0], operand));
    } else if ((kind & 3) == 3) {
        emit(with_register(AND, aside[2], aside[0], operand));
        emit(with_register(XOR, aside[2], aside[0], aside[2]));
    }
    emit(store((kind & 3) == 1 ? operand : aside[2], 0, OFFSET(mstatus)));
    emit(move(target, aside[0]));
    if ((kind & 3) == 3)
        jump_back();
    else
        status_written();
    return 1;
}

/* A register that is a word and nothing else: it is read, written or exchanged. */
static int word_patch(uint32_t offset, uint32_t kind, uint32_t target, uint32_t source, uint32_t *instead)
{
    if (kind == 2 && source == 0) {
        *instead = load(target, 0, offset);
        return 1;
    }
    if (kind != 1)
        return 0;
    if (target == 0) {
        *instead = store(source, 0, offset);
        return 1;
    }
    put_aside(1, target, source, 0);
    emit(load(aside[0], 0, offset));
    emit(store(source, 0, offset));
    emit(move(target, aside[0]));
    jump_back();
    return 1;
}

static int csr_patch(uint32_t number, uint32_t kind, uint32_t target, uint32_t source, uint32_t *instead)
{
    switch (number) {
    case 0x300:
        if (kind == 2 && source == 0)
            return word_patch(OFFSET(mstatus), kind, target, source, instead);
        return (kind & 3) && status_patch(kind, target, source);
    case 0x340: return word_patch(OFFSET(mscratch), kind, target, source, instead);
    case 0x341: return word_patch(OFFSET(mepc), kind, target, source, instead);
    case 0x342: return word_patch(OFFSET(mcause), kind, target, source, instead);
    case 0x343: return word_patch(OFFSET(mtval), kind, target, source, instead);
    default: return 0;
    }
}

/* Whether there is a patch for the instruction at pc, and what is to stand there. */
static int is_made(uint32_t instruction, uint32_t *instead)
{
    uint32_t target = rd_of(instruction), a = rs1_of(instruction), b = rs2_of(instruction), kind = funct3_of(instruction);

    if (opcode_of(instruction) == OPCODE_AMO)
        return atomic_patch(instruction >> 27, target, a, b);
    if (opcode_of(instruction) == OPCODE_SYSTEM)
        return csr_patch(instruction >> 20, kind, target, a, instead);
    return multiplication_patch(kind, target, a, b);
}

/* Whether a zone is near enough to an instruction, and has room for a patch. */
static int reaches(const struct zone *from, uint32_t address)
{
    return from->address + 4 * from->used - address + 0xfff00 < 0x1ffe00 && from->used + LONGEST < ZONE_WORDS;
}

/* The last of the zones that is near enough, or null. */
static struct zone *zone_for(uint32_t address)
{
    for (uint32_t i = ZONES; i > 0; i--)
        if (reaches(&zones[i - 1], address))
            return &zones[i - 1];
    return 0;
}

static int was_seen(uint32_t address)
{
    uint32_t *place = &seen[address / 4 % SEEN];

    if (*place == address)
        return 1;
    *place = address;
    return 0;
}

void patch(uint32_t instruction)
{
    uint32_t *place = guest_word(PC), begin, instead;

    if (!place || !was_seen(PC) || !(zone = zone_for(PC)))
        return;
    begin = zone->used;
    instead = jump(zone->address + 4 * begin - PC);
    if (is_made(instruction, &instead))
        *place = instead;
    else
        zone->used = begin;
}

/* The words of a patch from an address of the guest on, two at least, or null where there is none. */
static uint32_t *patch_words(uint32_t address)
{
    for (uint32_t i = 0; i < ZONES; i++)
        if (address - zones[i].address < 4 * zones[i].used)
            return zones[i].words + (address - zones[i].address) / 4;
    return 0;
}

int in_patch(uint32_t address)
{
    return patch_words(address) != 0;
}

int patch_exit(void)
{
    uint32_t *words = patch_words(PC);

    if (!words)
        return 0;
    PC = words[1];
    return 1;
}

void patches_begin(void)
{
    if (ZONES > 1 && PATCH_ZONE + 4 * ZONE_WORDS > guest_bytes)
        vmm_end("the guest has no memory for patches at", PATCH_ZONE);
    for (uint32_t page = 0; page < ZONE_PAGES; page++)
        vmm_give(below + page * NOVA_PAGE_BYTES, zones[0].address + page * NOVA_PAGE_BYTES, NOVA_READ | NOVA_EXECUTE);
    vmm_give(csr_page, CSR_PAGE, NOVA_READ | NOVA_WRITE);
}
