# Slots in the table of addresses stand in the order of their first uses, and not of their symbols.
	.text
	.globl main, first, second
	.type main, @function
	.type first, @function
	.type second, @function
main:
	auipc x5, %got_pcrel_hi(second)
	ld x5, %pcrel_lo(main)(x5)
1:	auipc x6, %got_pcrel_hi(first)
	ld x6, %pcrel_lo(1b)(x6)
	jalr x0, 0(x1)
	.size main, . - main
first:
	jalr x0, 0(x1)
	.size first, . - first
second:
	addi x10, x0, 2
	jalr x0, 0(x1)
	.size second, . - second
