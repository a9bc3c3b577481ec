# Stores of the return address where double words lie from eight, and then four, bytes below 2^64 on, and one between them.
        .include "units.inc"
        .globl  _start
_start: addi    x2, x0, -8
        store   sd, x1, 0, x0
        store   sd, x1, 8, x0
        addi    x2, x0, -4
        store   sd, x1, 16, x0
        store   sd, x1, 4, x0
        ld      x10, 16(x0)
        addi    x17, x0, 93
        ecall
        stop
