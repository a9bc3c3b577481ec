# A computed call whose class has no target.
        .include "units.inc"
        .globl  _start
_start: icall   x5, 0, 1
        return
        stop
