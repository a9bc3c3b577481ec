# A loop of short branches that is gone through eight times: the one over the other, and the one back.
        .include "units.inc"
        .globl  _start
_start: addi    x5, x0, 8
        addi    x10, x0, 0
again:  addi    x10, x10, 1
        beq     x10, x5, done
        bne     x10, x0, again
done:   addi    x17, x0, 93
        ecall
        stop
