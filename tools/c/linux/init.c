/* init: the first program of the guest's user mode, without a C library, for any address. It shows what the kernel knows of its machine, has
   two threads count, which the timer preempts, for as many rounds as its argument says, and switches the machine off. The kernel passes on
   what stands behind `--` in its command line; without an argument there are three rounds. */

/* System calls, and what they take. */
enum { IOCTL = 29, MKDIR = 34, MOUNT = 40, OPEN = 56, READ = 63, WRITE = 64, KILL = 129, REBOOT = 142, CLONE = 220, SLEEP = 407 };
enum { HERE = -100, OUTPUT = 1, DRAIN = 0x5409, AT_ONCE = 9, SHARED_MEMORY = 0x100, SHARED_FILES = 0x400, CHILD_ENDS = 17, MONOTONIC = 1 };
enum { REBOOT_MAGIC = (int)0xfee1dead, REBOOT_MAGIC_2 = 672274793, POWER_OFF = 0x4321fedc };

enum { THREADS = 2, STACK_WORDS = 128, ROUND_MS = 50, ROUNDS = 3 };

static unsigned counters[THREADS], stacks[THREADS][STACK_WORDS] __attribute__((aligned(16)));

static long call(long number, long a, long b, long c, long d)
{
    register long x10 __asm__("a0") = a, x11 __asm__("a1") = b, x12 __asm__("a2") = c, x13 __asm__("a3") = d, x14 __asm__("a4") = 0;
    register long x17 __asm__("a7") = number;

    __asm__ volatile("ecall" : "+r"(x10) : "r"(x11), "r"(x12), "r"(x13), "r"(x14), "r"(x17) : "memory");
    return x10;
}

static void put(const char *text)
{
    long length = 0;

    while (text[length])
        length++;
    call(WRITE, OUTPUT, (long)text, length, 0);
}

/* A tenth, and in *rest what is left, without division. */
static unsigned tenth(unsigned number, unsigned *rest)
{
    unsigned result = 0;

    *rest = number;
    for (int bit = 28; bit >= 0; bit--)
        if (*rest >> bit >= 10) {
            *rest -= 10u << bit;
            result += 1u << bit;
        }
    return result;
}

static void put_number(unsigned number)
{
    char digits[12], *at = digits + sizeof digits;
    unsigned rest;

    *--at = 0;
    do {
        number = tenth(number, &rest);
        *--at = (char)('0' + rest);
    } while (number);
    put(at);
}

static void show(const char *name)
{
    char some[256];
    long file = call(OPEN, HERE, (long)name, 0, 0), length;

    while ((length = call(READ, file, (long)some, sizeof some, 0)) > 0)
        call(WRITE, OUTPUT, (long)some, length, 0);
}

/* A thread, which counts for ever. */
static void count(volatile unsigned *counter)
{
    for (;;)
        ++*counter;
}

/* Starts a thread with a stack and a counter of its own, and answers its number. The new one comes back from the call with its counter in
   s1. */
static long start(int number)
{
    register long x10 __asm__("a0") = SHARED_MEMORY | SHARED_FILES | CHILD_ENDS;
    register long x11 __asm__("a1") = (long)(stacks[number] + STACK_WORDS);
    register long x12 __asm__("a2") = 0, x13 __asm__("a3") = 0, x14 __asm__("a4") = 0, x17 __asm__("a7") = CLONE;
    register volatile unsigned *counter __asm__("s1") = &counters[number];

    __asm__ volatile("ecall\n\tbnez a0, 1f\n\tmv a0, s1\n\tjr %1\n1:"
                     : "+r"(x10)
                     : "r"(&count), "r"(x11), "r"(x12), "r"(x13), "r"(x14), "r"(x17), "r"(counter)
                     : "memory");
    return x10;
}

static void sleep(int milliseconds)
{
    long long time[2] = {0, milliseconds * 1000000ll};

    call(SLEEP, MONOTONIC, 0, (long)time, 0);
}

static void show_counters(void)
{
    put("counters");
    for (int i = 0; i < THREADS; i++) {
        put(" ");
        put_number(counters[i]);
    }
    put("\n");
}

static void preempt(int rounds)
{
    long threads[THREADS];

    for (int i = 0; i < THREADS; i++)
        threads[i] = start(i);
    for (int round = 0; round < rounds; round++) {
        sleep(ROUND_MS);
        show_counters();
    }
    for (int i = 0; i < THREADS; i++)
        call(KILL, threads[i], AT_ONCE, 0, 0);
}

__asm__(".section .first, \"ax\"\n\t.globl _start\n_start:\n\tmv a0, sp\n\tj begin\n\t.text");

/* The stack begins with the number of arguments and their addresses. */
__attribute__((noreturn)) void begin(char **stack)
{
    put("Hello from user mode\n");
    call(MKDIR, HERE, (long)"/proc", 0755, 0);
    call(MOUNT, (long)"proc", (long)"/proc", (long)"proc", 0);
    show("/proc/cpuinfo");
    preempt((long)stack[0] > 1 ? stack[2][0] - '0' : ROUNDS);
    show("/proc/interrupts");
    call(IOCTL, OUTPUT, DRAIN, 1, 0);
    call(REBOOT, REBOOT_MAGIC, REBOOT_MAGIC_2, POWER_OFF, 0);
    for (;;) {
    }
}
