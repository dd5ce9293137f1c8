# The first instructions of a run, at address 0. The root makes a domain, starts main's thread there, and gives it all memory but page 0 and the guard
# pages below stacks: what is code and constant to read and execute, the rest to read and write; the consoles; and the sources' semaphores. So what goes
# through a null pointer, off a stack's end or into the code faults. What the root has at a scenario's beginning is there at the same selectors: 0 the
# domain, 1 main's thread, 2 its scheduling context, 3 to 15 the semaphores of 13 sources. The root's priority must be above that of main.
    .option norelax
    .include "boot_memory.s"
    .section .boot, "ax"
    .balign 4
    .globl nova_boot
nova_boot:
    li x17, 3               # create_ec: object 3, who answers startups, at selector 68
    li x10, 68
    ecall
    li x17, 5               # create_pt: object 4, the portal to it, at selector 16, the event base of both below
    li x10, 16
    li x12, 68
    la x14, startup
    ecall
    li x17, 2               # create_pd: object 5, the domain, at selector 64, with that portal
    li x10, 64
    li x12, 0x10013
    ecall
    li x17, 3               # create_ec: object 6, main's thread, at selector 65
    li x10, 65
    li x11, 64
    li x12, 0x100
    li x14, 16
    ecall
    li x17, 4               # create_sc: object 7, its scheduling context, at selector 66
    li x10, 66
    li x11, 0
    li x12, 65
    la x13, main_turns      # quantum 10, and its priority
    ecall
    li x17, 3               # create_ec: object 8, a virtual CPU by which the domain is given the rest, at selector 70
    li x10, 70
    li x11, 64
    li x12, 0x200
    li x13, 0
    ecall
    li x17, 4               # create_sc: object 9, its scheduling context, at selector 69, ahead of all
    li x10, 69
    li x11, 0
    li x12, 70
    li x13, 0x1ff
    ecall
    ebreak

# The first startup is the virtual CPU's: its domain is given everything. It then dies of a fetch, at address 0. The second is that of main.
startup:
    li x5, 0xfffff000       # the message words
    bne x8, x0, begin
    li x8, 1
    addi x6, x5, 504        # item 0, and then downward
    give_program
    mv x7, x9               # a guest's memory, of which its monitor gives what it will
    la x9, console
    li x28, 7
    jal x1, give
    add x9, x7, x7          # the consoles, as many as there are
    jal x1, give
    li x7, 0x4017f          # selectors 64 to 66, to places 0 to 2
    li x9, 1
    sw x7, 0(x6)
    sw x9, 4(x6)
    li x7, 0x0300f          # selector 3, to the same place
    li x9, 0x03001
    sw x7, -8(x6)
    sw x9, -4(x6)
    li x7, 0x0410f          # 4 to 7
    li x9, 0x04001
    sw x7, -16(x6)
    sw x9, -12(x6)
    li x7, 0x0818f          # 8 to 15
    li x9, 0x08001
    sw x7, -24(x6)
    sw x9, -20(x6)
    addi x29, x5, 536       # word 0: eight bytes an item
    sub x29, x29, x6
    slli x29, x29, 13
    sw x29, 0(x5)
    li x17, 1               # reply
    ecall
begin:
    la x6, _start
    sw x6, 28(x5)           # word 7: pc
    li x6, 2
    sw x6, 16(x5)           # word 4: PC is written
    li x17, 1
    ecall

    define_give

# The page below main's stack. Those below others are added by NOVA_STACK.
    .section .nova_guards, "a"
    .word stack_guard, 0, 1
