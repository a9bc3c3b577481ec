# What the table of addresses has a slot for: a common, and a function by two names, in the order of their first uses and not of their
# symbols; a name that is used twice has one.
	.comm block, 4, 8
	.text
	.globl main
	.type main, @function
main:
	auipc x5, %got_pcrel_hi(block)
	ld x5, %pcrel_lo(main)(x5)
1:	auipc x6, %got_pcrel_hi(again)
	ld x6, %pcrel_lo(1b)(x6)
2:	auipc x7, %got_pcrel_hi(again)
	ld x7, %pcrel_lo(2b)(x7)
3:	auipc x8, %got_pcrel_hi(block)
	ld x8, %pcrel_lo(3b)(x8)
4:	auipc x9, %got_pcrel_hi(once)
	ld x9, %pcrel_lo(4b)(x9)
	jalr x0, 0(x1)
	.size main, . - main
	.globl once, again
	.type once, @function
	.type again, @function
once:
again:
	addi x10, x0, 4
	jalr x0, 0(x1)
	.size once, . - once
	.size again, . - again
