# Object P with its class under label 2, and a gate of label 1, which is no class's, in place of g's work.
        .include "units.inc"
        .globl  _start
_start: addi    x2, x2, -16
        store   sd, x1, 8, x2
        lui     x5, 0x10
        ld      x5, 0(x5)
        icall   x5, 0, 2
        ld      x1, 8(x2)
        addi    x2, x2, 16
        return
f:      gate    2
        addi    x10, x0, 1
        return
g:      gate    2
        gate    1
        return
        stop
