# An object that exits with 7.
        .include "units.inc"
        .globl  _start
_start: addi    x10, x0, 7
        addi    x17, x0, 93
        ecall
        stop
