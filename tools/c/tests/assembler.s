# What the machine's own assembler has no words for: la, call, beqz and .ascii.
    .globl _start
_start:
    la sp, stack_end
    la a0, text
    call show
    li a0, 7
    ebreak

# Writes the text at a0 to the console.
show:
    la t0, console
next:
    lbu t1, 0(a0)
    beqz t1, shown
    sb t1, 0(t0)
    addi a0, a0, 1
    j next
shown:
    ret

    .section .rodata
text:
    .asciz "assembled\n"
