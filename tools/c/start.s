# What a program in C begins with.
    .option norelax

# The first instructions of main's thread, or of a guest: the stack, gp, tp, constructors and main. What main returns is in x10 at the end.
    .section .text.start, "ax"
    .globl _start
_start:
    la sp, stack_end
    call t0, nova_enter
    la s0, __preinit_array_start
    la s1, __init_array_end
constructor:
    beq s0, s1, constructed
    lw t1, 0(s0)
    addi s0, s0, 4
    jalr t1
    j constructor
constructed:
    li a0, 0                # no arguments
    li a1, 0
    call main
    call nova_end

# The end of a program without a C library.
    .weak nova_end
nova_end:
    ebreak

# The first steps of each thread, with its stack in sp: gp, and tp with thread-locals of its own. It comes back by t0, and leaves a0.
    .section .text.enter, "ax"
    .globl nova_enter
nova_enter:
    la gp, __global_pointer$
    lui t1, %hi(__tls_bytes)
    addi t1, t1, %lo(__tls_bytes)
    add t2, sp, zero
    sub sp, sp, t1
    mv tp, sp
    mv t3, sp
    la t4, __tls_begin
    la t5, __tls_data_end
copy:
    beq t4, t5, zeros
    lw t1, 0(t4)
    sw t1, 0(t3)
    addi t4, t4, 4
    addi t3, t3, 4
    j copy
zeros:
    beq t3, t2, entered
    sw zero, 0(t3)
    addi t3, t3, 4
    j zeros
entered:
    jr t0

# The handler of startups: the thread begins at the portal's identifier.
    .section .text.starter, "ax"
    .globl nova_starter
nova_starter:
    li t0, 0xfffff000
    sw a0, 28(t0)
    li t1, 2
    sw t1, 16(t0)
    li a7, 1
    ecall
    ebreak

# The handler of startups of nova_give: the portal's identifier is the address of how many gifts there are and where they lie. The count is set
# to 0, and the virtual CPU, at address 0, dies.
    .section .text.giver, "ax"
    .globl nova_giver
nova_giver:
    li t0, 0xfffff000
    lw t1, 0(a0)
    lw t2, 4(a0)
    slli t3, t1, 16
    sw t3, 0(t0)            # word 0: so many items
    sw zero, 16(t0)         # word 4: no register is written
    sw zero, 0(a0)
    addi t0, t0, 504        # item 0, and then downward
gift:
    beqz t1, given
    lw t3, 0(t2)
    lw t4, 4(t2)
    slli t4, t4, 12
    ori t4, t4, 1
    sw t3, 0(t0)
    sw t4, 4(t0)
    addi t2, t2, 8
    addi t0, t0, -8
    addi t1, t1, -1
    j gift
given:
    li a7, 1
    ecall
    ebreak
