/* A kernel that is a guest of timer.c. It has two tasks, each of which counts for ever; at each tick it says how far the one came, and has the
   other go on. After some ticks it ends. */
#include "console.h"
#include "timer.h"

enum { TASKS = 2, TICKS = 6 };

static volatile unsigned counts[TASKS];
static struct frame *frames[TASKS]; /* of a task that is not at work */
static int at_work;
static int ticks;
static unsigned char stacks[TASKS][1024] __attribute__((aligned(16)));

static void ask(unsigned number, unsigned argument)
{
    register unsigned x10 __asm__("x10") = argument;
    register unsigned x17 __asm__("x17") = number;

    __asm__ volatile("ecall" : : "r"(x10), "r"(x17) : "memory");
}

static void first_task(void)
{
    for (;;)
        counts[0]++;
}

static void second_task(void)
{
    for (;;)
        counts[1] += 2;
}

/* A tick came, and the frame has the registers of the task that was at work. */
static void on_tick(struct frame *frame)
{
    frames[at_work] = frame;
    put_text(at_work == 0 ? "first  " : "second ");
    put_hex(counts[at_work]);
    put_char('\n');
    if (++ticks == TICKS)
        __builtin_trap();
    at_work = (at_work + 1) % TASKS;
    ask(RESUME, (unsigned)frames[at_work]);
}

/* A frame at the end of a task's stack, from which the task begins. Both tasks have the kernel's gp and tp. */
static void make_task(int task, void (*function)(void))
{
    struct frame *frame = (struct frame *)(stacks[task + 1] - sizeof *frame);

    frame->pc = (unsigned)function;
    frame->x[2] = (unsigned)stacks[task + 1];
    __asm__("mv %0, gp" : "=r"(frame->x[3]));
    __asm__("mv %0, tp" : "=r"(frame->x[4]));
    frames[task] = frame;
}

int main(void)
{
    make_task(0, first_task);
    make_task(1, second_task);
    ask(SET_TIMER, (unsigned)on_tick);
    ask(RESUME, (unsigned)frames[at_work]);
    return 0;
}
