# Units that the objects lack: a branch, a jump, an ijump, system units, other stores.
        .include "units.inc"
        .globl  _start
_start: bltu    x5, x6, . + 8
        jal     x0, last
        jal     x0, _start
        ijump   x5, -8, 0xfffff
        ecall
        ebreak
        store   sb, x6, -1, x7
        gate    0xfffff
last:   fence
        stop
