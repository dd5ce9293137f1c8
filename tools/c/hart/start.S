# The first instructions, and the entry of traps: the registers of what was interrupted go to the frame to which mscratch points. Its words
# are pc, x1 to x31, and mstatus.
        .option norvc
        .section .first, "ax"
        .globl _start
_start: la sp, stack_end
        la t0, entry
        csrw mtvec, t0
        call main
1:      j 1b

        .balign 4
entry:  csrrw a0, mscratch, a0
        .irp r, 1, 2, 3, 4, 5, 6, 7, 8, 9, 11, 12, 13, 14, 15, 16, 17, 18, 19, 20, 21, 22, 23, 24, 25, 26, 27, 28, 29, 30, 31
        sw x\r, \r * 4(a0)
        .endr
        csrrw t0, mscratch, a0
        sw t0, 40(a0)
        csrr t0, mepc
        sw t0, 0(a0)
        csrr t0, mstatus
        sw t0, 128(a0)
        la sp, stack_end
        csrr a1, mcause
        csrr a2, mtval
        call on_trap

# Goes on with the registers of the frame in a0.
        .globl resume
resume: csrw mscratch, a0
        lw t0, 0(a0)
        csrw mepc, t0
        lw t0, 128(a0)
        csrw mstatus, t0
        .irp r, 1, 2, 3, 4, 5, 6, 7, 8, 9, 11, 12, 13, 14, 15, 16, 17, 18, 19, 20, 21, 22, 23, 24, 25, 26, 27, 28, 29, 30, 31
        lw x\r, \r * 4(a0)
        .endr
        lw a0, 40(a0)
        mret

        .bss
        .balign 16
        .skip 4096
stack_end:
