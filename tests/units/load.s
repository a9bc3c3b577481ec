# A load from 20000000h, which is no memory.
        .include "units.inc"
        .globl  _start
_start: lui     x5, 0x20000
        ld      x10, 0(x5)
        stop
