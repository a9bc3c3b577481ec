# Asks qemu's user mode to run a command of the host (semihosting, operation 12h). In the machine the EBREAK ends the program.
    .option norelax
    .text
    .globl _start
    .type _start, @function
_start:
    li a0, 0x12
    lla a1, asked
    slli zero, zero, 31
    ebreak
    srai zero, zero, 7
    li a7, 93
    ecall
    ebreak
    .size _start, . - _start

    .data
    .balign 8
asked:
    .dword command, 28
command:
    .asciz "echo a command of the host 1"
