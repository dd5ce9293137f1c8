# What boot.s and boot_each.s have in common: the items by which a domain is given its program's memory, in a message whose words begin at
# x5. The next item goes to x6, and those after it downward. build.sh refuses a program for which there are more than the message holds.

# Items for all memory but page 0 and the guard pages: what is code and constant to read and execute, the rest to read and write. It ends with
# the end of the memory in x9.
    .macro give_program
    li x7, 0x1000           # the code
    la x9, code_end
    la x28, code_rights
    jal x1, give
    la x28, data_rights
data:                       # and from there on up to the next guard page, or to the end
    la x9, stack_end
    la x10, boot_guards
    la x11, boot_guards_end
guard:
    beq x10, x11, nearest
    lw x12, 0(x10)          # the address of the first, how far it is to the next, and how many they are
    lw x13, 4(x10)
    lw x14, 8(x10)
    addi x10, x10, 12
another:
    beq x14, x0, guard
    bltu x12, x7, passed
    bgeu x12, x9, passed
    mv x9, x12
passed:
    add x12, x12, x13
    addi x14, x14, -1
    j another
nearest:
    jal x1, give
    li x12, 0x1000
    add x7, x7, x12
    la x9, stack_end
    bltu x7, x9, data
    .endm

# Items for the pages from x7 up to x9, with the rights of x28: each range as large as it can be. They lie x30 bytes further up in RAM, where that
# is `moved`. It leaves x9 in x7, or dies where the message is full.
    .macro define_give moved=no
give:
    bgeu x7, x9, given
    addi x12, x5, 48        # four items of objects follow
    bltu x6, x12, full
    li x12, 0x1000          # how large it is
    slli x13, x28, 2
    ori x13, x13, 1
grow:
    and x14, x7, x12
    bne x14, x0, grown
    add x14, x12, x12
    add x15, x7, x14
    bltu x9, x15, grown
    mv x12, x14
    addi x13, x13, 128
    j grow
grown:
    add x13, x13, x7
    .ifc \moved, moved
    add x13, x13, x30
    .endif
    sw x13, 0(x6)
    addi x13, x7, 1         # to the same place
    sw x13, 4(x6)
    addi x6, x6, -8
    add x7, x7, x12
    j give
given:
    jr x1
full:
    ebreak
    .endm
