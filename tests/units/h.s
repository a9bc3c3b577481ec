# Object H: main calls put, which writes three bytes from 0x10000 on.
        .include "units.inc"
        .globl  _start
_start: addi    x2, x2, -16
        store   sd, x1, 8, x2
        call_unit put
        addi    x10, x0, 0
        ld      x1, 8(x2)
        addi    x2, x2, 16
        return
put:    auipc   x11, 0xc0010
        addi    x11, x11, -148
        addi    x10, x0, 1
        addi    x12, x0, 3
        addi    x17, x0, 64
        ecall
        return
        stop
