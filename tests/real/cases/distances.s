# Compares a distance between two places of code in 8 bits with the same one in 32. Hardened code is longer than 255 bytes there.
    .text
    .globl main
    .type main, @function
main:
    lbu t0, short
    lw t1, long
    sub a0, t0, t1
    snez a0, a0
    ret
first:
    .rept 20
    sd zero, -8(sp)
    nop
    .endr
last:
    ret
    .size main, . - main

    .section .rodata
short:
    .byte last - first
    .balign 4
long:
    .word last - first
