# Absolute and pc-relative addresses, branches, jumps and both sorts of call.
        .option nopic
        .text
        .globl  start
        .type   start, @function
start:
        lui     x5, %hi(cell)
        addi    x5, x5, %lo(cell)
        lui     x6, %hi(cell + 8)
        sd      x10, %lo(cell + 8)(x6)
        lw      x7, %lo(cell + 4)(x6)
.Lnear:
        auipc   x8, %pcrel_hi(distant)
        ld      x9, %pcrel_lo(.Lnear)(x8)
.Lstore:
        auipc   x8, %pcrel_hi(cell)
        sw      x9, %pcrel_lo(.Lstore)(x8)
        beq     x5, x6, start
        jal     x0, finish
        call    distant_function
        tail    start
        .size   start, .-start
        .globl  finish
        .type   finish, @function
finish:
        li      x17, 93
        ecall
        jalr    x0, 0(x1)
        .size   finish, .-finish

        .section .rodata, "a"
note:   .asciz  "addressing"

        .data
        .balign 8
        .type   cell, @object
cell:   .dword  start
        .dword  note + 3
        .size   cell, 16

        .bss
        .balign 16
room:   .zero   48
