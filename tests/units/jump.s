# A computed jump through a pointer at 0x10000, which leads to f or g.
        .include "units.inc"
        .globl  _start
_start: lui     x5, 0x10
        ld      x5, 0(x5)
        ijump   x5, 0, 1
f:      gate    1
        addi    x10, x0, 1
        return
g:      gate    1
        addi    x10, x0, 2
        return
        stop
