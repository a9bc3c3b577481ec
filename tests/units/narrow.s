# Object P with g in no class: main calls through a pointer at 0x10000, which may lead to f alone.
        .include "units.inc"
        .globl  _start
_start: addi    x2, x2, -16
        store   sd, x1, 8, x2
        lui     x5, 0x10
        ld      x5, 0(x5)
        icall   x5, 0, 1
        ld      x1, 8(x2)
        addi    x2, x2, 16
        return
f:      gate    1
        addi    x10, x0, 1
        return
g:      addi    x10, x0, 2
        return
        stop
