# As much code as an image may have, with a computed jump through a pointer at 0x10000 to target: a destination's second word may
# then lie behind the code.
        .include "units.inc"
        .globl  _start
_start: lui     x5, 0x10
        ld      x5, 0(x5)
        ijump   x5, 0, 1, 4
target: bare
        gate    1
        return
        .rept   262105
        bare
        .endr
        stop
