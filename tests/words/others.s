# Words that are no instruction of RV64IM: operations of other extensions, and the word of zeros.
        .option norelax
        .word 0
        fence.i
        csrrw x0,mstatus,x0
        csrrs x1,cycle,x0
        csrrwi x31,fcsr,31
        mret
        sret
        wfi
        sfence.vma x0,x0
        lr.w x1,(x2)
        sc.d x1,x2,(x3)
        amoadd.w x1,x2,(x3)
        amomaxu.d x31,x30,(x29)
        flw f1,0(x2)
        fld f31,-8(x31)
        fsw f1,0(x2)
        fsd f31,8(x2)
        fadd.s f1,f2,f3
        fmadd.d f1,f2,f3,f4
        fcvt.l.d x1,f2
        andn x1,x2,x3
        xnor x1,x2,x3
        rol x1,x2,x3
        rori x1,x2,63
        clz x1,x2
        cpop x31,x31
        max x1,x2,x3
        zext.h x1,x2
        sh1add x1,x2,x3
        add.uw x1,x2,x3
        slli.uw x1,x2,63
        bset x1,x2,x3
        bexti x1,x2,1
        .insn i 0x67, 1, x0, x1, 0
        .insn b 0x63, 2, x1, x2, .+8
        .insn b 0x63, 3, x1, x2, .+8
        .insn i 0x03, 7, x1, x2, 0
        .insn s 0x23, 4, x1, 0(x2)
        .insn i 0x1b, 2, x1, x2, 0
        .insn i 0x1b, 1, x1, x2, 32
        .insn i 0x1b, 5, x1, x2, 1056
        .insn i 0x13, 1, x1, x2, 64
        .insn i 0x13, 1, x1, x2, 1024
        .insn i 0x13, 5, x1, x2, 2047
        .insn r 0x33, 1, 0x20, x1, x2, x3
        .insn r 0x3b, 2, 0, x1, x2, x3
        .insn r 0x3b, 1, 0x20, x1, x2, x3
        .insn r 0x3b, 1, 1, x1, x2, x3
        .insn r 0x3b, 2, 1, x1, x2, x3
        .insn r 0x3b, 3, 1, x1, x2, x3
        .insn r 0x33, 0, 0x21, x1, x2, x3
        .insn r 0x33, 5, 0x21, x1, x2, x3
        .insn r 0x3b, 0, 0x21, x1, x2, x3
        .insn r 0x3b, 4, 0, x1, x2, x3
        .insn r 0x3b, 7, 0x41, x1, x2, x3
        .insn r 0x33, 4, 3, x1, x2, x3
        .insn i 0x73, 0, x0, x0, 2
        .insn i 0x73, 0, x1, x0, 0
        .insn i 0x73, 0, x0, x1, 1
        .insn i 0x0f, 2, x0, x0, 0
