# An EBREAK.
        .include "units.inc"
        .globl  _start
_start: ebreak
        stop
