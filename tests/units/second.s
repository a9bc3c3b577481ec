# Jumps by the second word of their target and by the first, and a call, which is by the first; words that would call by
# the second, with which no unit begins, stand last.
        .include "units.inc"
        .globl  _start
_start: icall   x5, 0, 1
        ijump   x5, 0, 2, 4
        gate    1
        gate    2
        ijump   x6, -8, 0xfffff, 4
        ijump   x5, 0, 3
        stop
        check   x5, 0, 1, 4
        push
        jalr    x1, 0(x31)
