# Calls through a pointer at 0x10000 and then jumps through one at 0x10008, with labels of their own: either may lead to both,
# a call also to called, and a jump to jumped.
        .include "units.inc"
        .globl  _start
_start: addi    x2, x2, -16
        store   sd, x1, 8, x2
        lui     x5, 0x10
        ld      x5, 0(x5)
        icall   x5, 0, 1
        ld      x1, 8(x2)
        addi    x2, x2, 16
        lui     x5, 0x10
        ld      x5, 8(x5)
        ijump   x5, 0, 2, 4
called: gate    1
        bare
        addi    x10, x10, 1
        return
jumped: bare
        gate    2
        addi    x10, x10, 2
        return
both:   gate    1
        gate    2
        addi    x10, x10, 4
        return
        stop
