# Functions that are leaves, and of others one for each reason why it is none. `main` calls or points to each.
    .macro function name
    .globl \name
    .type \name, @function
\name:
    .endm
    .macro ends name
    .size \name, . - \name
    .endm

    .text
function main
    addi sp, sp, -16
    sd ra, 8(sp)
    call leaf
    call loops
    call tails
    call writes
    call labels
    call falls
    call fallen
    call leaves
    call entered
    call ends
    call breaks
    lla t0, pointed
    jalr t0
    ld ra, 8(sp)
    addi sp, sp, 16
    ret
ends main

function leaf
    addi a0, a0, 1
    ret
ends leaf
function loops
    addi a0, a0, -1
    bnez a0, loops
    j back
back:
    sd a0, -8(sp)
    ret
ends loops

# jumps to another function at its end
function tails
    addi a0, a0, 3
    j leaf
ends tails
function writes
    mv ra, ra
    ret
ends writes
function labels
    lui zero, 5
    ret
ends labels

# goes on into the next one
function falls
    addi a0, a0, 1
function fallen
    ret
ends fallen
ends falls

# goes into the middle of the next one
function leaves
    bnez a0, inside
    ret
ends leaves
function entered
    addi a0, a0, 1
inside:
    ret
ends entered
function ends
    bnez a0, 1f
    ret
1:  ebreak
ends ends
function breaks
    jr t1
ends breaks
function pointed
    ret
ends pointed
