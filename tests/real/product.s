# long __muldi3(long a, long b) for those who count on more than a call's rules: the inline assembly of gcc's library takes it
# to change a0 to a3 alone. It stands before the one of arithmetic.c, which is weak.

    .text
    .globl __muldi3
    .type __muldi3, @function
__muldi3:
    mv a2, a0
    li a0, 0
next:
    andi a3, a1, 1
    beqz a3, even
    add a0, a0, a2
even:
    srli a1, a1, 1
    slli a2, a2, 1
    bnez a1, next
    ret
    .size __muldi3, . - __muldi3
