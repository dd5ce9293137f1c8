/* Makes the guest, and answers its exits: each instruction that nova doesn't execute, each access to a device, and what is an exception of
   the guest's. */
#include "hart.h"
#include "must.h"

/* Selectors. EVENTS is followed by the portals of the guest's exits, and is the guest's event base. */
enum { HANDLER = 32, DOMAIN = 33, EVENTS = 64 };

/* Instructions as a whole. */
enum { MRET = 0x30200073, WFI = 0x10500073 };

enum { AMID_A_PATCH = 64 }; /* turns in which a patch that was recalled amid its work is over */

struct hart hart;
volatile NOVA_PAGES(csr_page, 1);

static const struct vmm_device *const *devices;
static uint32_t device_count, given;
static unsigned char stack[1024] __attribute__((aligned(16)));

NOVA_PORTAL(startup, on_startup);
NOVA_PORTAL(illegal, on_illegal);
NOVA_PORTAL(access_fault, on_access_fault);
NOVA_PORTAL(exception, on_exception);
NOVA_PORTAL(recall, on_recall);

/* Without patches.c there are no patches. */
__attribute__((weak)) void patches_begin(void)
{
}

__attribute__((weak)) void patch(uint32_t instruction)
{
    (void)instruction;
}

__attribute__((weak)) int in_patch(uint32_t address)
{
    (void)address;
    return 0;
}

__attribute__((weak)) int patch_exit(void)
{
    return 0;
}

void vmm_give(const volatile void *page, uint32_t address, uint32_t rights)
{
    nova_delegate(given++, nova_memory(nova_page_of((uint32_t)page), 0, rights), nova_page_of(address));
}

void vmm_set_interrupt(enum vmm_interrupt interrupt, int pends)
{
    hart.mip = pends ? hart.mip | 1u << interrupt : hart.mip & ~(1u << interrupt);
}

void vmm_end(const char *why, uint32_t word)
{
    put_text("\nvmm: ");
    put_text(why);
    put_char(' ');
    put_hex(word);
    put_char('\n');
    clock_end();
    __builtin_trap();
}

/* The end of every exit: an interrupt comes, if one may, and the guest goes on with what these groups say, and what it is given. */
static void go_on(uint32_t groups)
{
    take_interrupt();
    nova_words[NOVA_EXIT_GROUPS] = groups;
    nova_set_counts(0, given);
    given = 0;
}

/* The guest sleeps until an interrupt pends. One that nothing will wake ends. */
static void wait(void)
{
    if (!hart.mip && !clock_sleep())
        vmm_end("the guest waits for ever at", PC);
    PC += 4;
}

static void system_instruction(uint32_t instruction)
{
    if (funct3_of(instruction)) {
        csr_instruction(instruction);
    } else if (instruction == MRET && hart.privilege == MACHINE) {
        trap_return();
    } else if (instruction == WFI) {
        wait();
    } else {
        trap(ILLEGAL, instruction);
    }
}

void on_illegal(uint32_t reason)
{
    uint32_t instruction = nova_words[NOVA_EXIT_Q0], funct7 = instruction >> 25;

    (void)reason;
    if (instruction == 0 && patch_exit()) {
        /* pc is behind the patch */
    } else if (opcode_of(instruction) == OPCODE_SYSTEM) {
        system_instruction(instruction);
    } else if (opcode_of(instruction) == OPCODE_AMO) {
        atomic_instruction(instruction);
    } else if (opcode_of(instruction) == OPCODE_OP && funct7 == 1) {
        muldiv_instruction(instruction);
    } else if (opcode_of(instruction) == OPCODE_FENCE && funct3_of(instruction) == 1) {
        PC += 4; /* fence.i: nova executes what is in memory */
    } else {
        trap(ILLEGAL, instruction);
    }
    go_on(NOVA_PC | NOVA_LOW | NOVA_HIGH);
}

static const struct vmm_device *device_at(uint32_t address)
{
    for (uint32_t i = 0; i < device_count; i++)
        if (address - devices[i]->address < devices[i]->bytes)
            return devices[i];
    return 0;
}

static int device_load(const struct vmm_device *device, uint32_t address, uint32_t width, uint32_t instruction)
{
    uint32_t value = 0, unused = 32 - 8 * width, is_signed = !(funct3_of(instruction) & 4);

    if (!device->load(address - device->address, width, &value))
        return 0;
    value <<= unused;
    set_register(rd_of(instruction), is_signed ? (uint32_t)((int32_t)value >> unused) : value >> unused);
    return 1;
}

/* A load or a store where the guest has no memory: one of a device, or the guest's own fault. Amid a patch, as of an amoadd, it is the
   latter, with a pc that the guest doesn't know. */
void on_access_fault(uint32_t reason)
{
    uint32_t address = nova_words[NOVA_EXIT_Q0], width = nova_words[NOVA_EXIT_Q1], *instruction = guest_word(PC);
    const struct vmm_device *device = instruction ? device_at(address) : 0;
    int is_load = reason == NOVA_LOAD_FAULT;

    if (device && (is_load ? device_load(device, address, width, *instruction)
                           : device->store(address - device->address, width, nova_register(rs2_of(*instruction)))))
        PC += 4;
    else
        trap(is_load ? LOAD_FAULT : STORE_FAULT, address);
    go_on(NOVA_PC | NOVA_LOW | NOVA_HIGH);
}

static uint32_t cause_of(uint32_t reason, uint32_t access)
{
    switch (reason) {
    case NOVA_ECALL: return hart.privilege == MACHINE ? ECALL_OF_MACHINE : ECALL_OF_USER;
    case NOVA_EBREAK: return BREAKPOINT;
    case NOVA_FETCH_FAULT: return FETCH_FAULT;
    default: return access == NOVA_JUMP ? MISALIGNED_JUMP : access == NOVA_LOAD ? MISALIGNED_LOAD : MISALIGNED_STORE;
    }
}

/* What is an exception on the guest's machine too. */
void on_exception(uint32_t reason)
{
    uint32_t value = reason == NOVA_ECALL ? 0 : reason == NOVA_EBREAK ? PC : nova_words[NOVA_EXIT_Q0];

    trap(cause_of(reason, nova_words[NOVA_EXIT_Q1]), value);
    go_on(NOVA_PC);
}

/* A moment has come. Amid a patch, whose registers aren't the guest's, an interrupt comes a little later. */
void on_recall(uint32_t reason)
{
    (void)reason;
    if (in_patch(PC)) {
        clock_recall_in(AMID_A_PATCH);
        nova_words[NOVA_EXIT_GROUPS] = 0;
        nova_set_counts(0, 0);
        return;
    }
    clock_update();
    go_on(NOVA_PC);
}

/* The guest is given its memory, and what devices and patches give it. */
void on_startup(uint32_t reason)
{
    uint32_t order = 0;

    (void)reason;
    while ((uint32_t)NOVA_PAGE_BYTES << order < guest_bytes)
        order++;
    nova_delegate(given++, nova_memory(nova_page_of((uint32_t)guest_memory), order, NOVA_ALL_OF_MEMORY), nova_page_of(VMM_RAM));
    for (uint32_t i = 0; i < device_count; i++)
        if (devices[i]->begin)
            devices[i]->begin();
    patches_begin();
    hart.privilege = MACHINE;
    nova_register(10) = 0;
    nova_register(11) = VMM_RAM + guest_bytes - NOVA_PAGE_BYTES;
    PC = VMM_RAM;
    go_on(NOVA_PC | NOVA_LOW);
}

/* The handler is told the reason as the portal's identifier. */
static void handle(enum nova_reason reason, nova_entry entry)
{
    must(nova_create_pt(EVENTS + (uint32_t)reason, NOVA_OWN_PD, HANDLER, NOVA_ALL_GROUPS, entry), "create_pt");
    must(nova_pt_ctrl(EVENTS + (uint32_t)reason, (uint32_t)reason), "pt_ctrl");
}

void vmm_run(const struct vmm_device *const of_machine[], uint32_t count)
{
    devices = of_machine;
    device_count = count;
    clock_begin();
    must(nova_create_ec(HANDLER, NOVA_OWN_PD, NOVA_LOCAL, guest_processor(), (uint32_t)(stack + sizeof stack), 0), "create_ec");
    handle(NOVA_STARTUP, startup);
    handle(NOVA_ILLEGAL, illegal);
    handle(NOVA_LOAD_FAULT, access_fault);
    handle(NOVA_STORE_FAULT, access_fault);
    handle(NOVA_FETCH_FAULT, exception);
    handle(NOVA_MISALIGNED, exception);
    handle(NOVA_ECALL, exception);
    handle(NOVA_EBREAK, exception);
    handle(NOVA_RECALL, recall);
    must(nova_create_pd(DOMAIN, NOVA_OWN_PD, nova_objects(EVENTS, 4, NOVA_PT_EVENT)), "create_pd");
    must(nova_create_ec(GUEST_CPU, DOMAIN, NOVA_VCPU, guest_processor(), 0, EVENTS), "create_ec");
    must(nova_create_sc(GUEST_TURNS, NOVA_OWN_PD, GUEST_CPU, 0, 256), "create_sc"); /* main, of priority 1, goes before the guest */
    clock_watch();
}
