# As much code as an image may have: 262,127 instructions that do nothing, then a stop.
        .include "units.inc"
        .globl  _start
_start: .rept   262127
        addi    x0, x0, 0
        .endr
        stop
