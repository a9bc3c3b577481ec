# The start of a program and the system calls that the machine has (docs/MACHINE.md). Whoever starts the program has set the
# stack pointer; what `main` answers is the status with which the program ends.

    .text

    .globl _start
    .type _start, @function
_start:
    call main
    li a7, 93
    ecall
    ebreak
    .size _start, . - _start

# long read_input(char *to, long most): how many bytes of the input were read, 0 at its end
    .globl read_input
    .type read_input, @function
read_input:
    mv a2, a1
    mv a1, a0
    li a0, 0
    li a7, 63
    ecall
    ret
    .size read_input, . - read_input

# long write_output(const char *from, long count): how many bytes were written
    .globl write_output
    .type write_output, @function
write_output:
    mv a2, a1
    mv a1, a0
    li a0, 1
    li a7, 64
    ecall
    ret
    .size write_output, . - write_output

# void leave(int status): ends the program
    .globl leave
    .type leave, @function
leave:
    li a7, 93
    ecall
    ebreak
    .size leave, . - leave
