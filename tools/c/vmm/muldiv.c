/* The extension M, by additions and shifts. */
#include "hart.h"

/* The operation, in funct3. */
enum { MUL = 0, MULH = 1, MULHSU = 2, MULHU = 3, DIV = 4, DIVU = 5, REM = 6 };

/* The lower word of a product, bit by bit of the lesser operand. */
static uint32_t product(uint32_t a, uint32_t b)
{
    uint32_t bits = a < b ? a : b, addend = a < b ? b : a, sum = 0;

    for (; bits; bits >>= 1, addend <<= 1)
        if (bits & 1)
            sum += addend;
    return sum;
}

/* The upper word, of numbers without sign. */
static uint32_t upper_product(uint32_t a, uint32_t b)
{
    uint32_t bits = a < b ? a : b;
    uint64_t addend = a < b ? b : a, sum = 0;

    for (; bits; bits >>= 1, addend <<= 1)
        if (bits & 1)
            sum += addend;
    return (uint32_t)(sum >> 32);
}

/* The same with signs: each negative operand has 2^32 too much. */
static uint32_t signed_upper_product(uint32_t a, uint32_t b, int b_is_signed)
{
    return upper_product(a, b) - (a >> 31 ? b : 0) - (b_is_signed && b >> 31 ? a : 0);
}

/* The quotient, bit by bit, and the remainder. By 0 they are 2^32 - 1 and what is divided. */
static uint32_t quotient(uint32_t a, uint32_t b, uint32_t *remainder)
{
    uint32_t bit = 1, result = 0;

    *remainder = a;
    if (b == 0)
        return ~0u;
    for (; b < a && !(b >> 31); b <<= 1)
        bit <<= 1;
    for (; bit; bit >>= 1, b >>= 1)
        if (*remainder >= b) {
            *remainder -= b;
            result |= bit;
        }
    return result;
}

/* What divides numbers with a sign has the sign of both, and leaves what has that of the first. */
static uint32_t divided(uint32_t kind, uint32_t a, uint32_t b)
{
    int is_signed = kind == DIV || kind == REM, negative_a = is_signed && a >> 31, negative_b = is_signed && b >> 31;
    uint32_t remainder, result = quotient(negative_a ? -a : a, negative_b ? -b : b, &remainder);

    if (kind >= REM)
        return negative_a ? -remainder : remainder;
    return negative_a != negative_b && b ? -result : result;
}

void muldiv_instruction(uint32_t instruction)
{
    uint32_t a = nova_register(rs1_of(instruction)), b = nova_register(rs2_of(instruction)), kind = funct3_of(instruction), result;

    if (kind == MUL || kind == MULHU)
        patch(instruction);
    switch (kind) {
    case MUL: result = product(a, b); break;
    case MULH: result = signed_upper_product(a, b, 1); break;
    case MULHSU: result = signed_upper_product(a, b, 0); break;
    case MULHU: result = upper_product(a, b); break;
    default: result = divided(kind, a, b);
    }
    set_register(rd_of(instruction), result);
    PC += 4;
}
