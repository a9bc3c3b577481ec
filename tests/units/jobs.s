# Each hart goes to the job that its pointer at 0x10000 names. Its address and its value stand at 0x10080.
        .include "units.inc"
        .globl  _start

        .macro  own reg
        slli    x5, x10, 4
        lui     x6, 0x10
        add     \reg, x5, x6
        .endm

_start: slli    x5, x10, 3
        lui     x6, 0x10
        add     x5, x5, x6
        ld      x5, 0(x5)
        ijump   x5, 0, 1
# stores its value at its address, calls f or g through the pointer at 0x10040, and returns
caller: gate    1
        addi    x2, x2, -16
        store   sd, x1, 8, x2
        own     x5
        ld      x6, 128(x5)
        ld      x7, 136(x5)
        store   sd, x7, 0, x6
        lui     x5, 0x10
        ld      x5, 64(x5)
        icall   x5, 0, 2
        ld      x1, 8(x2)
        addi    x2, x2, 16
        return
f:      gate    2
        addi    x10, x0, 1
        return
g:      gate    2
        addi    x10, x0, 2
        return
# stores its value at its address, again and again
storer: gate    1
        own     x5
again:  ld      x6, 128(x5)
        ld      x7, 136(x5)
        store   sd, x7, 0, x6
        jal     x0, again
# returns the double word at its address
loader: gate    1
        own     x5
        ld      x6, 128(x5)
        ld      x10, 0(x6)
        return
# writes what it reads, two bytes at a time, by way of its address's own place
echo:   gate    1
        own     x11
        addi    x11, x11, 128
more:   addi    x10, x0, 0
        addi    x12, x0, 2
        addi    x17, x0, 63
        ecall
        addi    x12, x10, 0
        beq     x12, x0, done
        addi    x10, x0, 1
        addi    x17, x0, 64
        ecall
        jal     x0, more
done:   return
breaker: gate   1
        ebreak
        stop
# calls itself without an end
diver:  gate    1
down:   call_unit down
        stop
waiter: gate    1
wait:   jal     x0, wait
        stop
