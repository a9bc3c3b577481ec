# Branches with the offset eight before each kind of word, with other offsets before a jump, and with the last
# offset each way; the last word is one with eight at the end.
        .include "units.inc"
        .globl  _start
_start: bltu    x5, x6, . + 8
        jal     x0, last
        bltu    x5, x6, . + 8
        jal     x1, last
        bltu    x5, x6, . + 8
        stop
        bltu    x5, x6, . + 8
        addi    x0, x0, 0
        bltu    x5, x6, . + 12
        jal     x0, last
        bltu    x5, x6, . + 0
        jal     x0, last
        bltu    x5, x6, . + 4094
        bltu    x5, x6, . - 4096
last:   bltu    x5, x6, . + 8
