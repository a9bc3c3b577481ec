# An object that exits with the first byte of its data.
        .include "units.inc"
        .globl  _start
_start: lui     x5, 0x10
        ld      x10, 0(x5)
        addi    x17, x0, 93
        ecall
        stop
