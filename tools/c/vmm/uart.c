/* A 16550 without interrupts. What the guest stores to be sent is shown on the console; what it reads is vmm_input. Once there is no more
   of that, the guest is given the page of its registers to read, so that its polling makes no exits. */
#include "console.h"
#include "vmm.h"

#define UART 0x10000000u

/* Registers, a byte each, and what they have. */
enum { DATA, IER, IIR, LCR, MCR, LSR, MSR, SCRATCH, UART_BYTES };
enum { DIVISOR_LATCH = 0x80, LOOP = 0x10, FIFO = 1, FIFO_IS_ON = 0xc0, NO_INTERRUPT = 1, SENT = 2 };
enum { READY = 1, IDLE = 0x60, CONNECTED = 0xb0 };

/* As the guest loads them. */
static volatile NOVA_PAGES(registers, 1);

/* Those that lie behind others, of which the guest sees the ones or the others. */
static unsigned char ier, fcr, divisor[2];

static const unsigned char *input = (const unsigned char *)""; /* what is left */

static int is_latched(void)
{
    return registers[LCR] & DIVISOR_LATCH;
}

/* In a loop the modem's lines are its own outputs. */
static unsigned char modem_status(void)
{
    unsigned control = registers[MCR];

    return (unsigned char)(control & LOOP ? (control & 12) << 4 | (control & 2) << 3 | (control & 1) << 5 : CONNECTED);
}

static void update(void)
{
    registers[DATA] = is_latched() ? divisor[0] : 0;
    registers[IER] = is_latched() ? divisor[1] : ier;
    registers[IIR] = (unsigned char)((ier & SENT ? SENT : NO_INTERRUPT) | (fcr & FIFO ? FIFO_IS_ON : 0));
    registers[LSR] = IDLE;
    registers[MSR] = modem_status();
}

static void give_registers(void)
{
    vmm_give(registers, UART, NOVA_READ);
}

static void begin(void)
{
    update();
    if (vmm_input)
        input = vmm_input;
    if (!*input)
        give_registers();
}

static uint32_t take_input(void)
{
    uint32_t byte = *input ? *input++ : 0;

    if (byte && !*input)
        give_registers();
    return byte;
}

/* While there is input. */
static int load(uint32_t offset, uint32_t width, uint32_t *value)
{
    (void)width;
    *value = offset == DATA && !is_latched() ? take_input() : registers[offset] | (uint32_t)(offset == LSR && *input ? READY : 0);
    return 1;
}

static void send(unsigned char byte)
{
    if (!(registers[MCR] & LOOP))
        put_char((char)byte);
}

static int store(uint32_t offset, uint32_t width, uint32_t value)
{
    unsigned char byte = (unsigned char)value;

    (void)width;
    if (offset == DATA && !is_latched()) {
        send(byte);
        return 1;
    }
    switch (offset) {
    case DATA: divisor[0] = byte; break;
    case IER: *(is_latched() ? &divisor[1] : &ier) = is_latched() ? byte : byte & 15; break;
    case IIR: fcr = byte; break;
    case MCR: registers[MCR] = byte & 31; break;
    case LCR: case SCRATCH: registers[offset] = byte; break;
    }
    update();
    return 1;
}

const struct vmm_device vmm_uart = {UART, UART_BYTES, begin, load, store};
