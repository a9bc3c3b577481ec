# Asks qemu's user mode to read the input onto the shadow stack (semihosting, operation 6), and returns to what was read, as
# `left`, which nothing calls. In the machine the EBREAK ends the program.
    .option norelax
    .text
    .globl _start
    .type _start, @function
_start:
    addi sp, sp, -16
    sd ra, 8(sp)
    call reads
    li a0, 0
    ld ra, 8(sp)
    addi sp, sp, 16
    ret
    .size _start, . - _start

    .type reads, @function
reads:
    li a0, 1                    # opens the input
    lla a1, input
    slli zero, zero, 31
    ebreak
    srai zero, zero, 7
    lla a1, onto_shadow
    sd a0, 0(a1)
    li a0, 6
    slli zero, zero, 31
    ebreak
    srai zero, zero, 7
    lla a1, onto_data
    lla a0, onto_shadow
    ld a0, 0(a0)
    sd a0, 0(a1)
    li a0, 6
    slli zero, zero, 31
    ebreak
    srai zero, zero, 7
    lla a0, address
    ld ra, 0(a0)
    ret
    .size reads, . - reads

    .globl left
    .type left, @function
left:
    li a0, 42
    li a7, 93
    ecall
    ebreak
    .size left, . - left

    .data
    .balign 8
onto_shadow:
    .dword 0, 0x60000010, 8     # the file, the place of the second site, its size
onto_data:
    .dword 0, address, 8
input:
    .dword terminal, 0, 3       # a name, for reading, and the name's length
terminal:
    .asciz ":tt"
    .balign 8
address:
    .dword 0
