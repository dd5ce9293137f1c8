/* hart: a small kernel for QEMU's `virt` without firmware, and for vmm. It tries the instructions of M, A and Zicsr, each several times at
   its place, traps from machine and user mode, and interrupts, and has two tasks that the timer preempts. What it says depends on nothing
   but the machine's definition, so it says the same on both. Built with -DBRIEF it tries less and says less. */
#include <stdint.h>

#ifdef BRIEF
enum { IS_BRIEF = 1, TICKS = 3, TASK_ROUNDS = 50, TRAP_ROUNDS = 1 };
#else
enum { IS_BRIEF = 0, TICKS = 6, TASK_ROUNDS = 1000, TRAP_ROUNDS = 3 };
#endif

/* The machine. */
#define UART ((volatile unsigned char *)0x10000000)
#define MSIP ((volatile uint32_t *)0x2000000)
#define MTIMECMP ((volatile uint32_t *)0x2004000)
#define MTIME ((volatile uint32_t *)0x200bff8)
#define FINISHER ((volatile uint32_t *)0x100000)
#define NOWHERE 0x18000000
enum { LINE_STATUS = 5, IDLE = 0x20, POWER_OFF = 0x5555 };

/* Fields of mstatus, bits of mie, causes. */
enum { MIE = 8, MPIE = 0x80, MPP = 0x1800, SOFTWARE = 8, TIMER = 0x80 };
#define SOFTWARE_INTERRUPT 0x80000003u
#define TIMER_INTERRUPT 0x80000007u

enum { TASKS = 2, TICK = 20000 };

/* What is interrupted: pc, x1 to x31, mstatus. start.S knows it, too. */
struct frame {
    uint32_t pc, x[31], status;
};

void resume(struct frame *frame) __attribute__((noreturn));

static struct frame first, tasks[TASKS];
static unsigned char stacks[TASKS][1024] __attribute__((aligned(16)));
static volatile uint32_t cause, value, ticks, done[TASKS], sums[TASKS];
static volatile int at_work = -1;

static void put_char(char character)
{
    while (!(UART[LINE_STATUS] & IDLE)) {
    }
    UART[0] = (unsigned char)character;
}

static void put_line(const char *name, uint32_t number)
{
    while (*name)
        put_char(*name++);
    put_char(' ');
    for (int shift = 28; shift >= 0; shift -= 4)
        put_char("0123456789abcdef"[number >> shift & 15]);
    put_char('\n');
}

/* What came of a test, and of all tests of a group. */
static uint32_t sum, group;

static uint32_t added(uint32_t to, uint32_t word)
{
    return (to << 5 | to >> 27) ^ word;
}

static void add(uint32_t word)
{
    sum = added(sum, word);
}

static void show(const char *name)
{
    if (!IS_BRIEF)
        put_line(name, sum);
    group = added(group, sum);
    sum = 0;
}

static void show_group(const char *name)
{
    put_line(name, group);
    group = 0;
}

/* Operands: each with each, or, to be brief, four with the next ones. */
static const uint32_t samples[] = {0x80000000, 0xffffffff, 3, 0xdeadbeef, 0, 1, 2, 10, 0x7fff, 0x10000, 0x12345678, 0x7fffffff, 0x80000001,
    0xfffffffe};
enum { SAMPLES = IS_BRIEF ? 4 : sizeof samples / sizeof *samples, SECONDS = IS_BRIEF ? 1 : SAMPLES };

#define FOR_ALL_SAMPLES \
    for (int i = 0; i < SAMPLES; i++) \
        for (int j = 0; j < SECONDS; j++)
#define SECOND samples[IS_BRIEF ? (i + 1) % SAMPLES : j]

#define TRY(instruction) \
    FOR_ALL_SAMPLES { \
        uint32_t result, a = samples[i], same = samples[i]; \
        __asm__ volatile(instruction " %0, %1, %2" : "=&r"(result) : "r"(a), "r"(SECOND)); \
        __asm__ volatile(instruction " %0, %0, %1" : "+r"(same) : "r"(SECOND)); \
        add(result); \
        add(same); \
        __asm__ volatile(instruction " x0, %0, %1" : : "r"(a), "r"(SECOND)); \
    } \
    show(instruction)

static void try_m(void)
{
    TRY("mul");
    TRY("mulh");
    TRY("mulhsu");
    TRY("mulhu");
    TRY("div");
    TRY("divu");
    TRY("rem");
    TRY("remu");
    show_group("M");
}

#define TRY_ATOMIC(instruction) \
    FOR_ALL_SAMPLES { \
        uint32_t word = samples[i], result, same = SECOND; \
        __asm__ volatile(instruction " %0, %1, (%2)" : "=&r"(result) : "r"(SECOND), "r"(&word) : "memory"); \
        add(result); \
        add(word); \
        __asm__ volatile(instruction " x0, %0, (%1)" : : "r"(SECOND), "r"(&word) : "memory"); \
        add(word); \
        __asm__ volatile(instruction " %0, %0, (%1)" : "+r"(same) : "r"(&word) : "memory"); \
        add(word); \
        add(same); \
    } \
    show(instruction)

static void try_reservations(void)
{
    for (int i = 0; i < SAMPLES; i++) {
        uint32_t words[2] = {samples[i], (uint32_t)i}, old, fails, again;

        __asm__ volatile("lr.w %0, (%3)\n\taddi %0, %0, 1\n\tsc.w %1, %0, (%3)\n\tsc.w %2, x0, (%3)"
                         : "=&r"(old), "=&r"(fails), "=&r"(again) : "r"(words) : "memory");
        add(old);
        add(fails == 0);
        add(again != 0);
        add(words[0]);
        __asm__ volatile("lr.w x0, (%1)\n\tsc.w %0, x0, (%2)" : "=&r"(fails) : "r"(words), "r"(words + 1) : "memory");
        add(fails != 0);
        add(words[1]);
    }
    show("lr.w sc.w");
}

static void try_a(void)
{
    TRY_ATOMIC("amoadd.w");
    TRY_ATOMIC("amoswap.w.aq");
    TRY_ATOMIC("amoxor.w.rl");
    TRY_ATOMIC("amoand.w.aqrl");
    TRY_ATOMIC("amoor.w");
    TRY_ATOMIC("amomin.w");
    TRY_ATOMIC("amomax.w");
    TRY_ATOMIC("amominu.w");
    TRY_ATOMIC("amomaxu.w");
    try_reservations();
    show_group("A");
}

#define TRY_CSR(instruction, operand) \
    __asm__ volatile(instruction " %0, mscratch, " operand : "=&r"(old) : "r"(samples[i])); \
    add(old); \
    __asm__ volatile("csrr %0, mscratch" : "=r"(old)); \
    add(old)

static void try_mscratch(int i)
{
    uint32_t old, word = samples[i];

    TRY_CSR("csrrw", "%1");
    TRY_CSR("csrrs", "%1");
    TRY_CSR("csrrc", "%1");
    TRY_CSR("csrrwi", "21");
    TRY_CSR("csrrsi", "10");
    TRY_CSR("csrrci", "3");
    TRY_CSR("csrrs", "x0");
    TRY_CSR("csrrw", "x0");
    __asm__ volatile("csrrw %0, mscratch, %0\n\tcsrrw %0, mscratch, %0" : "+r"(word));
    add(word);
}

static void try_others(int i)
{
    uint32_t old, word = samples[i];

    __asm__ volatile("csrw mepc, %1\n\tcsrr %0, mepc\n\tcsrw mcause, %2" : "=&r"(old) : "r"(samples[i] & ~3u), "r"(i));
    add(old);
    __asm__ volatile("csrrw %0, mcause, x0\n\tcsrw mtval, %1\n\tcsrr %1, mtval" : "=&r"(old), "+r"(word));
    add(old);
    add(word);
    __asm__ volatile("csrrsi %0, mstatus, 8" : "=r"(old));
    add(old & MIE);
    __asm__ volatile("csrrc %0, mstatus, %1" : "=r"(old) : "r"(MIE));
    add(old & MIE);
    __asm__ volatile("csrw mstatus, %1\n\tcsrrci %0, mstatus, 8" : "=r"(old) : "r"(MPP | (i & 1 ? MIE : 0)));
    add(old & (MPP | MIE));
    __asm__ volatile("csrs mstatus, %1\n\tcsrr %0, mstatus\n\tcsrci mstatus, 8" : "=&r"(old) : "r"(i & 2 ? MIE : 0));
    add(old & (MPP | MIE));
}

static void try_csr(void)
{
    for (int i = 0; i < SAMPLES; i++) {
        try_mscratch(i);
        try_others(i);
    }
    show("csr");
    show_group("Zicsr");
}

static void tick(void)
{
    uint32_t now = *MTIME;

    MTIMECMP[1] = ~0u;
    MTIMECMP[0] = now + TICK;
    MTIMECMP[1] = 0;
    ticks++;
    if (done[0] && done[1] && ticks >= TICKS) {
        add(sums[0]);
        add(sums[1]);
        show("two tasks");
        show_group("preempted");
        *FINISHER = POWER_OFF;
    }
}

/* A trap. What a test made goes on behind it, in machine mode; an interrupt that a test made is over; a tick goes on with the other task. */
struct frame *on_trap(struct frame *frame, uint32_t number, uint32_t what)
{
    if (number == TIMER_INTERRUPT) {
        tick();
        at_work = (at_work + 1) % TASKS;
        return &tasks[at_work];
    }
    cause = number;
    value = what;
    frame->status |= MPP;
    if (number == SOFTWARE_INTERRUPT)
        *MSIP = 0;
    else
        frame->pc += 4;
    return frame;
}

#define TRAP(name, ...) \
    cause = value = ~0u; \
    __asm__ volatile(__VA_ARGS__); \
    add(cause); \
    show(name)

/* Goes to user mode, where an instruction is made and then an ecall, if it didn't trap: both are behind a pc that is known. */
#define IN_USER_MODE(instruction) "csrc mstatus, %0\n\tla t0, 1f\n\tcsrw mepc, t0\n\tmret\n1:\t" instruction : : "r"(MPP) : "t0", "memory"

static void try_faults(void)
{
    uint32_t words[2] = {1, 2};

    TRAP("ecall", "ecall" : : : "memory");
    TRAP("illegal", ".word 0xffffffff" : : : "memory");
    TRAP("a doubleword's amoadd", ".word 0x0000302f" : : : "memory");
    TRAP("no such instruction", ".word 0x30004073" : : : "memory");
    TRAP("no such register", "csrr t0, 0x5c0" : : : "t0", "memory");
    TRAP("not to be written", "csrw mhartid, t0" : : : "memory");
    TRAP("ebreak", ".option push\n\t.option norvc\n\tebreak\n\t.option pop" : : : "memory");
    TRAP("load", "lw t0, 0(%0)" : : "r"(NOWHERE) : "t0", "memory");
    add(value);
    TRAP("store", "sw t0, 8(%0)" : : "r"(NOWHERE) : "memory");
    add(value);
    TRAP("misaligned lr", "lr.w t0, (%0)" : : "r"((uint32_t)words + 1) : "t0", "memory");
}

static void try_user_mode(void)
{
    __asm__ volatile("csrw pmpaddr0, %0\n\tcsrw pmpcfg0, %1\n\tcsrw mcounteren, x0" : : "r"(-1), "r"(0x1f));
    TRAP("ecall of a user", IN_USER_MODE("ecall"));
    TRAP("register in user mode", IN_USER_MODE("csrr t0, mstatus"));
    TRAP("counter in user mode", IN_USER_MODE("csrr t0, cycle"));
    __asm__ volatile("csrwi mcounteren, 1\n\tcsrwi scounteren, 1"); /* the latter traps where there is no supervisor mode */
    TRAP("counter that user mode may read", IN_USER_MODE("csrr t0, cycle\n\tecall"));
    TRAP("mret in user mode", IN_USER_MODE("mret"));
}

static void try_interrupt(void)
{
    cause = ~0u;
    *MSIP = 1;
    __asm__ volatile("csrw mie, %0\n\tcsrsi mstatus, 8" : : "r"(SOFTWARE) : "memory");
    while (cause == ~0u) {
    }
    __asm__ volatile("csrci mstatus, 8\n\tcsrw mie, x0" : : : "memory");
    add(cause);
    show("software interrupt");
}

static void try_traps(void)
{
    for (int i = 0; i < TRAP_ROUNDS; i++) {
        __asm__ volatile("csrw mscratch, %0" : : "r"(&first));
        try_faults();
        try_user_mode();
        try_interrupt();
    }
    show_group("traps");
}

/* A task: it works, with all kinds of exits, until there were some ticks, and says what came of the first rounds. */
static void work(void)
{
    uint32_t me = (uint32_t)at_work, mine = 0, atomic = 0;

    for (uint32_t round = 0; !done[me] || ticks < TICKS; round++) {
        uint32_t old, product;

        __asm__ volatile("mul %0, %1, %2" : "=r"(product) : "r"(round + 77), "r"(round * 3 + 12345));
        __asm__ volatile("amoadd.w %0, %1, (%2)" : "=&r"(old) : "r"(product), "r"(&atomic) : "memory");
        __asm__ volatile("csrrci t0, mstatus, 8\n\tcsrs mstatus, t0" : : : "t0", "memory");
        mine = (mine << 7 | mine >> 25) + old + product;
        if (round == TASK_ROUNDS) {
            sums[me] = mine;
            done[me] = 1;
        }
    }
    for (;;)
        __asm__ volatile("wfi");
}

static void try_tasks(void)
{
    for (int i = 0; i < TASKS; i++) {
        tasks[i].pc = (uint32_t)work;
        tasks[i].x[1] = (uint32_t)(stacks[i] + sizeof stacks[i]); /* x2 */
        tasks[i].status = MPP | MPIE;
    }
    __asm__ volatile("csrci mstatus, 8\n\tcsrw mie, %0" : : "r"(TIMER));
    MTIMECMP[1] = 0;
    MTIMECMP[0] = 0;
    __asm__ volatile("csrw mscratch, %0\n\tcsrsi mstatus, 8\n\twfi" : : "r"(&first));
}

int main(void)
{
    try_m();
    try_a();
    try_csr();
    try_traps();
    try_tasks();
    for (;;) {
    }
}
