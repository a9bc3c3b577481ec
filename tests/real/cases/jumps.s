# What leaves a function other than by its return. `resumed` comes back from `save` a second time, `switched` goes on with
# another stack, as a coroutine does. Both are returns to a place that no call is waiting at.

    .text
    .globl save
    .type save, @function
save:
    sd ra, 0(a0)
    sd sp, 8(a0)
    li a0, 0
    ret
    .size save, . - save

    .globl resume
    .type resume, @function
resume:
    ld ra, 0(a0)
    ld sp, 8(a0)
    li a0, 1
    ret
    .size resume, . - resume

# void change(long *left, const long *entered): keeps where it was called and the stack, and goes on with others
    .globl change
    .type change, @function
change:
    sd ra, 0(a0)
    sd sp, 8(a0)
    ld ra, 0(a1)
    ld sp, 8(a1)
    ret
    .size change, . - change
