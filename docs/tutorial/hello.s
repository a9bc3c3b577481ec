# Writes a line and exits with 0. Each instruction that is no macro is a unit of its own.
        .include "units.inc"

        .data
line:   .ascii  "hi\n"

        .text
        prologue main

main:   addi    x2, x2, -16
        store_unit x1, 8, x2
        call_unit put
        addi    x10, x0, 0
        ld      x1, 8(x2)
        addi    x2, x2, 16
        return_unit

put:    lui     x11, %hi(line)
        addi    x11, x11, %lo(line)
        addi    x10, x0, 1
        addi    x12, x0, 3
        addi    x17, x0, 64
        ecall
        return_unit
        stop_unit
