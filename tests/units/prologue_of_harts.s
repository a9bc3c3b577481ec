# The prologue of an image for several harts: the stacks of each are its own, by its number in x10. It stands at 0x40000000.
        .include "units.inc"
        .equ    entry, 0x40000050
        .globl  _start
        ebreak
        ebreak
        ebreak
_start: lui     x2, 0x10000
        slli    x31, x10, 20
        sub     x2, x2, x31
        lui     x3, 0x60000
        slli    x31, x10, 16
        add     x3, x3, x31
        addi    x3, x3, 8
        call_unit entry
        addi    x17, x0, 93
        ecall
