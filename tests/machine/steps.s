# One instruction a line, with what x10 and x11 hold before it. x12 holds 0123456789abcdefh, and x13
# the address of the 16 bytes 80 91 a2 b3 c4 d5 e6 f7 08 19 2a 3b 4c 5d 6e 7f. steps.py runs them.
    lui x12, 0x80000 # 0 0
    lui x12, 0x7ffff # 0 0
    auipc x12, 0x80000 # 0 0
    auipc x12, 0x1 # 0 0
    jal x12, .+8 # 0 0
    jal x12, .-32 # 0 0
    jal x0, .+12 # 0 0
    jalr x12, 9(x10) # 0x40000040 0
    jalr x12, -4(x10) # 0x4000004d 0
    jalr x10, 8(x10) # 0x40000040 0
    beq x10, x11, .+8 # 5 5
    beq x10, x11, .+8 # 5 0x100000005
    bne x10, x11, .+12 # 5 0x8000000000000005
    bne x10, x11, .+12 # 5 5
    blt x10, x11, .+8 # 0xffffffffffffffff 1
    blt x10, x11, .+8 # 1 0xffffffffffffffff
    blt x10, x11, .-24 # 7 7
    bge x10, x11, .+8 # 0xffffffffffffffff 1
    bge x10, x11, .+8 # 1 0x8000000000000000
    bge x10, x11, .-28 # 7 7
    bltu x10, x11, .+8 # 0xffffffffffffffff 1
    bltu x10, x11, .+8 # 1 0xffffffffffffffff
    bltu x10, x11, .+8 # 7 7
    bgeu x10, x11, .+8 # 0xffffffffffffffff 1
    bgeu x10, x11, .+8 # 1 0xffffffffffffffff
    bgeu x10, x11, .+8 # 7 7
    lb x12, 0(x13) # 0 0
    lb x12, 15(x13) # 0 0
    lh x12, 0(x13) # 0 0
    lh x12, 9(x13) # 0 0
    lw x12, 0(x13) # 0 0
    lw x12, 11(x13) # 0 0
    ld x12, 0(x13) # 0 0
    ld x12, 7(x13) # 0 0
    lbu x12, 7(x13) # 0 0
    lbu x12, 8(x13) # 0 0
    lhu x12, 3(x13) # 0 0
    lhu x12, 14(x13) # 0 0
    lwu x12, 0(x13) # 0 0
    lwu x12, 12(x13) # 0 0
    ld x12, -8(x10) # 0x10031 0
    sb x11, 0(x13) # 0 0x1122334455667788
    sb x11, 7(x13) # 0 0x11223344556677ff
    sh x11, 1(x13) # 0 0x1122334455667788
    sh x11, 6(x13) # 0 0xffffffffffff1234
    sw x11, 0(x13) # 0 0x1122334455667788
    sw x11, 3(x13) # 0 0x11223344fedcba98
    sd x11, 0(x13) # 0 0x1122334455667788
    sd x11, 4(x13) # 0 0xfedcba9876543210
    addi x12, x10, -1 # 0 0
    addi x12, x10, 2047 # 0xffffffffffffffff 0
    slti x12, x10, -1 # 0xfffffffffffffffe 0
    slti x12, x10, -1 # 0 0
    slti x12, x10, 2047 # 0x8000000000000000 0
    sltiu x12, x10, -1 # 0 0
    sltiu x12, x10, 1 # 0 0
    sltiu x12, x10, -1 # 0xffffffffffffffff 0
    xori x12, x10, -1 # 0x0123456789abcdef 0
    xori x12, x10, 0x555 # 0xffffffffffffffff 0
    ori x12, x10, 0x700 # 0x00ff 0
    ori x12, x10, -2048 # 0x123 0
    andi x12, x10, -4 # 0xffffffffffffffff 0
    andi x12, x10, 0x7ff # 0x8765432187654321 0
    slli x12, x10, 0 # 0x8000000000000001 0
    slli x12, x10, 63 # 3 0
    slli x12, x10, 36 # 0x123456789abcdef 0
    srli x12, x10, 0 # 0x8000000000000001 0
    srli x12, x10, 63 # 0x8000000000000001 0
    srli x12, x10, 32 # 0xfedcba9876543210 0
    srai x12, x10, 0 # 0x8000000000000001 0
    srai x12, x10, 63 # 0x8000000000000001 0
    srai x12, x10, 4 # 0x7fffffffffffffff 0
    addiw x12, x10, 1 # 0x7fffffff 0
    addiw x12, x10, -1 # 0x100000000 0
    slliw x12, x10, 0 # 0xfffffffff0000001 0
    slliw x12, x10, 31 # 3 0
    slliw x12, x10, 4 # 0x0fffffff 0
    srliw x12, x10, 0 # 0x180000000 0
    srliw x12, x10, 31 # 0x80000000 0
    srliw x12, x10, 4 # 0xffffffff80000000 0
    sraiw x12, x10, 0 # 0x180000000 0
    sraiw x12, x10, 31 # 0x80000000 0
    sraiw x12, x10, 4 # 0xffffffff7fffffff 0
    add x12, x10, x11 # 0xffffffffffffffff 2
    add x12, x10, x11 # 0x7fffffffffffffff 1
    sub x12, x10, x11 # 1 2
    sub x12, x10, x11 # 0x8000000000000000 1
    sll x12, x10, x11 # 0x8000000000000001 0x40
    sll x12, x10, x11 # 3 0xffffffffffffffff
    slt x12, x10, x11 # 0xffffffffffffffff 0
    slt x12, x10, x11 # 0 0x8000000000000000
    slt x12, x10, x11 # 3 3
    sltu x12, x10, x11 # 0xffffffffffffffff 0
    sltu x12, x10, x11 # 0 0x8000000000000000
    xor x12, x10, x11 # 0xff00ff00ff00ff00 0x0ff00ff00ff00ff0
    xor x12, x10, x10 # 0xff00ff00ff00ff00 0
    srl x12, x10, x11 # 0x8000000000000001 0
    srl x12, x10, x11 # 0x8000000000000001 0x7f
    sra x12, x10, x11 # 0x8000000000000001 0x40
    sra x12, x10, x11 # 0x8000000000000001 63
    sra x12, x10, x11 # 0x4000000000000000 62
    or x12, x10, x11 # 0xff00ff00ff00ff00 0x0ff00ff00ff00ff0
    or x12, x10, x0 # 0x8000000000000001 0
    and x12, x10, x11 # 0xff00ff00ff00ff00 0x0ff00ff00ff00ff0
    and x12, x10, x0 # 0x8000000000000001 0
    addw x12, x10, x11 # 0x7fffffff 1
    addw x12, x10, x11 # 0xffffffff 0x100000001
    subw x12, x10, x11 # 0 1
    subw x12, x10, x11 # 0x80000000 1
    sllw x12, x10, x11 # 0x12345678 0x20
    sllw x12, x10, x11 # 1 0x3f
    srlw x12, x10, x11 # 0xffffffff80000000 0
    srlw x12, x10, x11 # 0xffffffff80000000 0x3f
    sraw x12, x10, x11 # 0x180000000 0x20
    sraw x12, x10, x11 # 0x80000000 31
    sraw x12, x10, x11 # 0xffffffff40000000 30
    fence rw, rw # 0 0
    fence # 0 0
    add x0, x10, x11 # 1 2
    addi x12, x0, 0 # 1 2
