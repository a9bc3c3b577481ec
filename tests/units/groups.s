# Stores of each width behind one mask, one of them of x31: "ABCDEFGH" and the address 10024h are read from data, what is stored at
# 10020h is put out, and the byte at 1081fh is the status.
        .include "units.inc"
        lui     x5, 0x10
        ld      x6, 0(x5)
        ld      x5, 8(x5)
again:  addi    x31, x5, -4
        slli    x31, x31, 36
        srli    x31, x31, 36
        sb      x6, 0(x31)
        sd      x31, 16(x31)
        sh      x6, 2(x31)
        sw      x6, 4(x31)
        sb      x6, 2047(x31)
        sd      x6, 8(x31)
        bltu    x5, x0, again
        bgeu    x5, x0, . + 8
        jal     x0, again
        addi    x10, x0, 1
        lui     x11, 0x10
        addi    x11, x11, 32
        addi    x12, x0, 24
        addi    x17, x0, 64
        ecall
        lui     x11, 0x11
        lbu     x10, -2017(x11)
        return
        stop
