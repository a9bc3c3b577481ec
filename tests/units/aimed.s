# A store that is aimed at code, which its mask leads to data.
        .include "units.inc"
        .globl  _start
_start: lui     x5, 0x40000
        store   sd, x5, 0, x5
        return
        stop
