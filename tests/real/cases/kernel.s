# Reads the input onto the shadow stack by the system call, and returns to what was read, as `left`, which nothing calls. In
# the machine the call answers -14 and writes nothing, so the program ends with 14; qemu's user mode has the kernel write.
    .option norelax
    .text
    .globl _start
    .type _start, @function
_start:
    addi sp, sp, -16
    sd ra, 8(sp)
    call reads
    li a0, 0
    ld ra, 8(sp)
    addi sp, sp, 16
    ret
    .size _start, . - _start

    .type reads, @function
reads:
    li a0, 0
    li a1, 0x60000010           # the place of the second site
    li a2, 8
    li a7, 63
    ecall
    bltz a0, refused
    li a0, 0
    lla a1, address
    ecall
    lla a0, address
    ld ra, 0(a0)
    ret
refused:
    neg a0, a0
    li a7, 93
    ecall
    ebreak
    .size reads, . - reads

    .globl left
    .type left, @function
left:
    li a0, 42
    li a7, 93
    ecall
    ebreak
    .size left, . - left

    .data
    .balign 8
address:
    .dword 0
