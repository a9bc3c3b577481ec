# An object that reads its input, four bytes at a time, and writes them.
        .include "units.inc"
        .globl  _start
_start: lui     x11, 0x10
again:  addi    x10, x0, 0
        addi    x12, x0, 4
        addi    x17, x0, 63
        ecall
        addi    x12, x10, 0
        bne     x10, x0, . + 8
        jal     x0, done
        addi    x10, x0, 1
        addi    x17, x0, 64
        ecall
        jal     x0, again
done:   return
        stop
