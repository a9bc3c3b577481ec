# A store whose masked address is the last of the window.
        .include "units.inc"
        .globl  _start
_start: store   sd, x2, -1, x2
        return
        stop
