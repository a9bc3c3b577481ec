# Object B: main puts 7 into x10 and returns.
        .include "units.inc"
        .globl  _start
_start: addi    x10, x0, 7
        return
        stop
