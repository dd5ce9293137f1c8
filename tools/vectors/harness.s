# Runs `program` with every register 0 and writes pc and x1 to x31, as they are at its ebreak, to
# standard output: 32 words, little-endian. The ebreak raises SIGTRAP, and the handler finds the
# registers in the context that the kernel saves for it on a stack of its own.

    .equ SIGALTSTACK, 132
    .equ RT_SIGACTION, 134
    .equ WRITE, 64
    .equ EXIT, 93

    .equ SIGTRAP, 5
    .equ SA_SIGINFO, 0x00000004
    .equ SA_ONSTACK, 0x08000000
    .equ SAVED_REGISTERS, 160           # place of pc and x1 to x31 in a ucontext of 32-bit Linux

    .section .harness, "ax"
    .globl _start
_start:
    la   a0, handler_stack
    li   a1, 0
    li   a7, SIGALTSTACK
    ecall
    li   a0, SIGTRAP
    la   a1, handler
    li   a2, 0
    li   a3, 8                          # bytes of a signal set
    li   a7, RT_SIGACTION
    ecall
    .irp number, 1, 2, 3, 4, 5, 6, 7, 8, 9, 10, 11, 12, 13, 14, 15, 16
    li   x\number, 0
    .endr
    .irp number, 17, 18, 19, 20, 21, 22, 23, 24, 25, 26, 27, 28, 29, 30, 31
    li   x\number, 0
    .endr
    j    program

at_breakpoint:                          # a2 is the address of the ucontext
    li   a0, 1
    addi a1, a2, SAVED_REGISTERS
    li   a2, 128
    li   a7, WRITE
    ecall
    li   a0, 0
    li   a7, EXIT
    ecall

    .balign 4
handler_stack:
    .4byte stack, 0, 8192               # start, flags, bytes
handler:
    .4byte at_breakpoint, SA_SIGINFO | SA_ONSTACK, 0, 0

    .section .stack, "aw", @nobits
stack:
    .space 8192

    .section .data_page, "aw", @nobits
    .space 4096
