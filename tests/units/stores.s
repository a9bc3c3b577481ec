# A mask and the stores behind it: of each width, at the least and the greatest distance, of x0 and of x31; seventeen in all, and a
# stop.
        .include "units.inc"
        addi x31,x5,-4
        slli x31,x31,36
        srli x31,x31,36
        sb x6,0(x31)
        sh x7,2(x31)
        sw x8,4(x31)
        sd x9,8(x31)
        sd x31,2047(x31)
        sd x0,16(x31)
        sd x1,24(x31)
        sd x1,32(x31)
        sd x1,40(x31)
        sd x1,48(x31)
        sd x1,56(x31)
        sd x1,64(x31)
        sd x1,72(x31)
        sd x1,80(x31)
        sd x1,88(x31)
        sd x1,96(x31)
        sd x1,104(x31)
        stop
