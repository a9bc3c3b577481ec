# Jumps by a table of labels. They are in the function where it has a size (--defsym SIZED=1).
    .text
    .globl main
    .type main, @function
main:
    la t0, table
    lw t0, 4(t0)
    jr t0
one:
    li a0, 1
    ret
two:
    li a0, 5
    ret
    .ifdef SIZED
    .size main, . - main
    .endif

    .section .rodata
    .balign 4
table:
    .word one, two
