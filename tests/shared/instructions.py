"""The words of instructions, by the tables of the RISC-V unprivileged specification. Numbers may be of either sign."""

ECALL, EBREAK = 0x00000073, 0x00100073
LD, SB, SH, SW, SD, BEQ, BNE = 3, 0, 1, 2, 3, 0, 1  # funct3


def r_form(opcode, funct3, funct7, rd, rs1, rs2):
    return opcode | rd << 7 | funct3 << 12 | rs1 << 15 | rs2 << 20 | funct7 << 25


def i_form(opcode, funct3, rd, rs1, imm):
    return opcode | rd << 7 | funct3 << 12 | rs1 << 15 | (imm & 0xFFF) << 20


def s_form(funct3, rs1, rs2, imm):
    return 0x23 | (imm & 0x1F) << 7 | funct3 << 12 | rs1 << 15 | rs2 << 20 | (imm >> 5 & 0x7F) << 25


def u_form(opcode, rd, imm):
    return opcode | rd << 7 | imm << 12


def branch(funct3, rs1, rs2, offset):
    return (0x63 | (offset >> 11 & 1) << 7 | (offset >> 1 & 15) << 8 | funct3 << 12 | rs1 << 15 | rs2 << 20
            | (offset >> 5 & 63) << 25 | (offset >> 12 & 1) << 31)


def jump(rd, offset):
    return (0x6F | rd << 7 | (offset >> 12 & 0xFF) << 12 | (offset >> 11 & 1) << 20
            | (offset >> 1 & 0x3FF) << 21 | (offset >> 20 & 1) << 31)


def jal(rd, at, target):
    """A jump that stands at an address."""
    return jump(rd, target - at)


def lui(rd, field):
    return u_form(0x37, rd, field)


def auipc(rd, field):
    return u_form(0x17, rd, field)


def addi(rd, rs1, imm):
    return i_form(0x13, 0, rd, rs1, imm)


def slli(rd, rs1, amount):
    return i_form(0x13, 1, rd, rs1, amount)


def add(rd, rs1, rs2):
    return r_form(0x33, 0, 0, rd, rs1, rs2)


def ld(rd, rs1, imm):
    return i_form(0x03, LD, rd, rs1, imm)


def sd(rs2, rs1, imm):
    return s_form(SD, rs1, rs2, imm)


def beq(rs1, rs2, offset):
    return branch(BEQ, rs1, rs2, offset)


def jalr(rd, rs1):
    return i_form(0x67, 0, rd, rs1, 0)


RETURN = jalr(0, 1)
