# The first instructions of a run with a monitor on each of several processors, at address 0. Monitor k is on processor k, with a guest and a
# console of its own, and shares nothing with the others. The root does for each what boot.s does for one: it makes a domain that holds the
# monitor's memory but page 0 and the guard pages below stacks, its guest's, and its console, and starts main's thread there. What the root has at a scenario's beginning is
# there at the same selectors: 0 the domain, 1 main's thread, 2 its scheduling context; and main's event base is 16 there, too. (A domain
# also holds a portal at 1032 + 16 k, of which it makes no use.) The root's priority must be above that of main.
#
# For itself each monitor lies as if it were the only one: from address 0x1000 on, its guest at guest_memory, its console at `console`. In RAM
# monitor k lies at k * 2^monitor_order pages, its guest at (1 + k) * 2^guest_order pages, and its console k pages from `consoles` on. These
# symbols, and `monitors`, are given on the linker's command line.
    .option norelax
    .include "boot_memory.s"
    .section .boot, "ax"
    .balign 4
    .globl nova_boot
nova_boot:
    la s1, guest_processor_word
    la s3, monitors
    la s4, monitor_order
    addi s4, s4, 12
    li s5, 1
    sll s5, s5, s4          # a monitor's bytes
    li s2, 1024             # selectors of monitor k, 1024 + 16 k and so on: the domain, main's thread, its scheduling context
monitor:
    sw s0, 0(s1)            # where the monitor reads its processor's number
    li x17, 3               # create_ec: who answers startups on the processor, at selector s2 + 4
    addi x10, s2, 4
    li x11, 0
    mv x12, s0
    li x13, 0
    li x14, 0
    ecall
    li x17, 5               # create_pt: two portals to it: at s2 + 8 that of a virtual CPU by which the domain is given everything,
    addi x10, s2, 8         # and at s2 + 9 that of main; their identifiers are k
    addi x12, s2, 4
    la x14, startup
    ecall
    li x17, 11
    addi x10, s2, 8
    mv x11, s0
    ecall
    li x17, 5
    addi x10, s2, 9
    li x11, 0
    la x14, begin
    ecall
    li x17, 11
    addi x10, s2, 9
    mv x11, s0
    ecall
    li x17, 2               # create_pd: the domain, with the first of them
    mv x10, s2
    li x11, 0
    addi x12, s2, 8
    slli x12, x12, 12
    addi x12, x12, 0x13
    ecall
    li x17, 3               # create_ec: main's thread, and the virtual CPU, at s2 + 5
    addi x10, s2, 1
    mv x11, s2
    ori x12, s0, 0x100
    li x13, 0
    li x14, 16
    ecall
    addi x10, s2, 5
    mv x11, s2
    ori x12, s0, 0x200
    addi x14, s2, 8
    ecall
    li x17, 4               # create_sc: that of the virtual CPU, at s2 + 6, ahead of all; then that of main, with quantum 10 and priority 1
    addi x10, s2, 6
    li x11, 0
    addi x12, s2, 5
    li x13, 0x1ff
    ecall
    addi x10, s2, 2
    li x11, 0
    addi x12, s2, 1
    li x13, 0xa01
    ecall
    add s1, s1, s5
    addi s2, s2, 16
    addi s0, s0, 1
    bne s0, s3, monitor
    ebreak

# The startup of the virtual CPU of monitor k, which is in x10: its domain is given everything. It then dies of a fetch, at address 0.
startup:
    mv x31, x10
    li x5, 0xfffff000       # the message words
    addi x6, x5, 504        # item 0, and then downward
    la x30, monitor_order   # where the monitor's memory lies
    addi x30, x30, 12
    sll x30, x10, x30
    give_program
    mv x10, x31
    la x28, guest_order     # the guest's
    addi x29, x28, 12
    addi x7, x10, 1
    sll x7, x7, x29
    slli x29, x28, 7
    add x7, x7, x29
    addi x7, x7, 0x1d
    la x9, guest_memory
    addi x9, x9, 1
    sw x7, 0(x6)
    sw x9, 4(x6)
    slli x7, x10, 12        # the console, to read and write
    la x9, consoles
    add x7, x7, x9
    addi x7, x7, 0x0d
    la x9, console
    addi x9, x9, 1
    sw x7, -8(x6)
    sw x9, -4(x6)
    slli x10, x10, 16       # selectors 1024 + 16 k and the next, to places 0 and 1
    li x7, 0x4000ff
    add x7, x7, x10
    li x9, 1
    sw x7, -16(x6)
    sw x9, -12(x6)
    li x7, 0x409013         # the portal of main's startup, at 1033 + 16 k, to place 16
    add x7, x7, x10
    li x9, 0x10001
    sw x7, -24(x6)
    sw x9, -20(x6)
    addi x29, x5, 536       # word 0: eight bytes an item
    sub x29, x29, x6
    slli x29, x29, 13
    sw x29, 0(x5)
    sw x0, 16(x5)           # word 4: nothing is written
    li x17, 1               # reply
    ecall

    define_give moved

# The startup of main's thread of monitor k: it begins at _start, and is given its scheduling context, at 1026 + 16 k, to place 2.
begin:
    li x5, 0xfffff000
    slli x10, x10, 16
    li x7, 0x40207f
    add x7, x7, x10
    li x9, 0x2001
    sw x7, 504(x5)
    sw x9, 508(x5)
    li x7, 0x10000          # word 0: an item
    sw x7, 0(x5)
    la x6, _start
    sw x6, 28(x5)           # word 7: pc
    li x6, 2
    sw x6, 16(x5)           # word 4: PC is written
    li x17, 1
    ecall

    .data
    .balign 4
    .globl guest_processor_word
guest_processor_word:
    .word 0

# The page below main's stack. Those below others are added by NOVA_STACK.
    .section .nova_guards, "a"
    .word stack_guard, 0, 1
