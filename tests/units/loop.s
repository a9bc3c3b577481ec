# A loop that is gone through eight times.
        .include "units.inc"
        .globl  _start
_start: addi    x5, x0, 8
again:  addi    x5, x5, -1
        beq     x5, x0, . + 8
        jal     x0, again
        addi    x10, x0, 7
        addi    x17, x0, 93
        ecall
        stop
