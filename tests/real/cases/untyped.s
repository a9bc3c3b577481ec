# Calls a function through a pointer. It is a function to the hardener where it has a type (--defsym TYPED=1).
    .text
    .globl main
    .type main, @function
main:
    addi sp, sp, -16
    sd ra, 8(sp)
    ld t0, pointer
    jalr t0
    ld ra, 8(sp)
    addi sp, sp, 16
    ret
    .size main, . - main

    .ifdef TYPED
    .type handler, @function
    .endif
handler:
    li a0, 5
    ret
    .size handler, . - handler

    .data
    .balign 8
pointer:
    .dword handler
