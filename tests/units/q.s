# Object Q where calls and jumps have labels of their own: main jumps through a pointer at 0x10000, which leads to f or g, and h
# calls what may be called, which is g. Each of them begins with a word for calls and one for jumps.
        .include "units.inc"
        .globl  _start
_start: lui     x5, 0x10
        ld      x5, 0(x5)
        ijump   x5, 0, 2, 4
f:      bare
        gate    2
        addi    x10, x0, 1
        return
g:      gate    1
        gate    2
        addi    x10, x0, 2
        return
h:      icall   x5, 0, 1
        return
        stop
