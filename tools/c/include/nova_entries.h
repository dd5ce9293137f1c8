/* The stacks and the entries of threads and portals, which nova.h includes. The stack is what create_ec put into x2: its end, a multiple of
   16. What start.s adds at the first entry is gp, and tp with the thread's own thread-locals, at the end of the stack. */
#ifndef NOVA_ENTRIES_H
#define NOVA_ENTRIES_H

/* Defines `name`, an array of bytes for a stack, whose end is name + sizeof name. It has at least as many as are asked for, in whole pages,
   behind a page that is no part of the program's map, so that a stack that grows too large faults. NOVA_STACKS defines an array of several,
   of which that of i ends at name[i] + sizeof name[i]. */
#define NOVA_STACK(name, bytes) \
    static unsigned char name[NOVA_WITH_GUARD(bytes)] NOVA_AMONG_STACKS; \
    NOVA_GUARD(name, 0, 1)
#define NOVA_STACKS(name, number, bytes) \
    static unsigned char name[number][NOVA_WITH_GUARD(bytes)] NOVA_AMONG_STACKS; \
    NOVA_GUARD(name, NOVA_WITH_GUARD(bytes), number)

#define NOVA_WITH_GUARD(bytes) (((bytes) + 2 * NOVA_PAGE_BYTES - 1) / NOVA_PAGE_BYTES * NOVA_PAGE_BYTES)
#define NOVA_AMONG_STACKS __attribute__((aligned(NOVA_PAGE_BYTES), section(".nova_stacks")))
#define NOVA_GUARD(name, apart, number) \
    static const struct nova_guards name##_guards __attribute__((used, section(".nova_guards"))) = {name, apart, number}

/* Pages that boot.s leaves out: the address of the first, how many bytes it is from one to the next, and how many they are. */
struct nova_guards {
    const void *first;
    uint32_t apart;
    uint32_t number;
};

/* Defines `entry`, for create_pt: a portal's handler. It calls `void function(uint32_t identifier)` and replies. */
#define NOVA_PORTAL(entry, function) \
    void entry(void); \
    void function(uint32_t identifier) __attribute__((used)); \
    NOVA_ENTRY(entry, function, "li a7, 1\n\tecall\n\tebreak")

/* Defines `entry`, where a thread begins. It calls `void function(void)`, and ends by ebreak. */
#define NOVA_THREAD(entry, function) \
    void entry(void); \
    void function(void) __attribute__((used)); \
    NOVA_ENTRY(entry, function, "ebreak")

#define NOVA_ENTRY(entry, function, end) \
    __asm__(".pushsection .text.nova_entry, \"ax\", @progbits\n\t.balign 4\n\t.globl " #entry "\n" #entry ":\n\t" \
            "bnez tp, 1f\n\tcall t0, nova_enter\n1:\tcall " #function "\n\t" end "\n\t.popsection")

/* Defined by start.s: the entry of a handler of startups, for a portal with the group NOVA_PC whose identifier is where the thread begins.
   So one handler, a local thread on each processor, starts any number of threads: see nova_start. */
void nova_starter(void);

/* Makes a global thread in the caller's domain that begins at `begin`, and gives it turns. `starter` is a local thread of the same
   processor without work of its own. At `event_base` the portal of its startup is made, at `target` the thread, and at `target` + 1 its
   scheduling context. The answer is the first status but NOVA_SUCCESS. */
NOVA_USED static inline enum nova_status nova_start(nova_selector target, uint32_t cpu, nova_selector starter, nova_selector event_base,
    nova_entry begin, void *stack_end, uint32_t priority, uint32_t quantum)
{
    enum nova_status status = nova_create_pt(event_base, NOVA_OWN_PD, starter, NOVA_PC, nova_starter);

    if (status == NOVA_SUCCESS)
        status = nova_pt_ctrl(event_base, (uint32_t)begin);
    if (status == NOVA_SUCCESS)
        status = nova_create_ec(target, NOVA_OWN_PD, NOVA_GLOBAL, cpu, (uint32_t)stack_end, event_base);
    if (status == NOVA_SUCCESS)
        status = nova_create_sc(target + 1, NOVA_OWN_PD, target, priority, quantum);
    return status;
}

/* Makes a local thread on each of the first `cpus` processors, since a call never crosses processors: that of processor i is held at `first`
   + i. `stacks` are those of NOVA_STACKS and `bytes` is the size of each; null and 0 for starters, which need none. The answer is the first
   status but NOVA_SUCCESS. */
NOVA_USED static inline enum nova_status nova_create_handlers(nova_selector first, nova_selector pd, uint32_t cpus, void *stacks, uint32_t bytes)
{
    enum nova_status status = NOVA_SUCCESS;

    for (uint32_t cpu = 0; cpu < cpus && status == NOVA_SUCCESS; cpu++)
        status = nova_create_ec(first + cpu, pd, NOVA_LOCAL, cpu, (uint32_t)stacks + (cpu + 1) * bytes, 0);
    return status;
}

/* Makes a portal to each of the handlers of nova_create_handlers: that of processor i is held at `first` + i. */
NOVA_USED static inline enum nova_status nova_create_portals(nova_selector first, nova_selector handlers, uint32_t cpus, uint32_t groups,
    nova_entry entry)
{
    enum nova_status status = NOVA_SUCCESS;

    for (uint32_t cpu = 0; cpu < cpus && status == NOVA_SUCCESS; cpu++)
        status = nova_create_pt(first + cpu, NOVA_OWN_PD, handlers + cpu, groups, entry);
    return status;
}

#endif
