# The prologue: the handlers, the opening with its call of the entry, and the closing. It stands at 0x40000000.
        .include "units.inc"
        .equ    entry, 0x40000040
        .globl  _start
        ebreak
        ebreak
        ebreak
_start: lui     x2, 0x10000
        lui     x3, 0x60000
        addi    x3, x3, 8
        call_unit entry
        addi    x17, x0, 93
        ecall
