# Data relocations of 32 and of 64 bits, and sums and differences of each width.
        .text
        .globl  from
        .type   from, @function
from:   addi    x10, x0, 1
        jalr    x0, 0(x1)
        .size   from, .-from
        .globl  to
        .type   to, @function
to:     addi    x10, x0, 2
        jalr    x0, 0(x1)
        .size   to, .-to

        .data
        .globl  table
        .type   table, @object
table:  .dword  to - from
        .word   to - from
        .half   to - from
        .byte   to - from
        .byte   7
        .dword  from
        .dword  to + 4
        .word   from
        .word   outside - 0x10
        .size   table, .-table

        .set    answer, 42
        .globl  answer
