# Hart 0 exits with the double word at 0x10000, into which each other hart stores its number.
        .include "units.inc"
        .globl  _start
_start: lui     x5, 0x10
        bne     x10, x0, other
        ld      x10, 0(x5)
        return
other:  store   sd, x10, 0, x5
        return
        stop
