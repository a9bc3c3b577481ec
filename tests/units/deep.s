# A function that calls itself 8,191 times.
        .include "units.inc"
        .globl  _start
_start: lui     x10, 2
        addi    x10, x10, -1
        jal     x0, again
again:  bne     x10, x0, . + 8
        jal     x0, last
        addi    x2, x2, -16
        store   sd, x1, 8, x2
        addi    x10, x10, -1
        call_unit again
        ld      x1, 8(x2)
        addi    x2, x2, 16
last:   return
        stop
