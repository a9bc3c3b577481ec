"""The words of units, the prologue and the file of an image, by docs/MACHINE.md."""

import struct

from tests.shared.instructions import EBREAK, ECALL, addi, branch, i_form, jal, r_form, s_form, u_form

CODE, BAD_TARGET, BAD_RETURN, DEEP = 0x40000000, 0x40000000, 0x40000004, 0x40000008
HANDLERS = {BAD_TARGET: "__cfi_bad_target", BAD_RETURN: "__cfi_bad_return", DEEP: "__cfi_deep"}
OPENING = 0x4000000C
UNITS = {1: 0x40000040, 2: 0x40000050}  # by the version of the image
UNITS_OF_3 = {1: 0x4000002C, 2: 0x4000003C}  # under graphs of version 3
PAGE = 0x1000


def first_unit(version, graph):
    """Where the units begin of an image of a version, under a graph of one. The call of the opening is 12 bytes before it, the closing 8."""
    return (UNITS_OF_3 if graph == 3 else UNITS)[version]


def push(at):
    """The first seven words of a call at an address: its site goes onto the shadow stack."""
    return [i_form(0x13, 1, 30, 3, 48), branch(1, 30, 0, 8), jal(0, at + 8, DEEP), u_form(0x17, 30, 0),
            addi(30, 30, 20), s_form(3, 3, 30, 0), addi(3, 3, 8)]


def check(at, rs1, imm, label, past=0):
    """A check, which reads the word that is so many bytes behind its destination."""
    return [addi(31, rs1, imm), i_form(0x13, 7, 31, 31, -4), u_form(0x37, 30, 0x40000),
            r_form(0x33, 0, 0x20, 30, 31, 30), i_form(0x13, 5, 30, 30, 20), branch(0, 30, 0, 8),
            jal(0, at + 24, BAD_TARGET), i_form(0x03, 2, 30, 31, past), u_form(0x37, 4, label), addi(4, 4, 55),
            branch(0, 30, 4, 8), jal(0, at + 44, BAD_TARGET)]


def prologue(entry, version=1, graph=1):
    """The words before the first unit. In version 2 x2 and x3 are a hart's own, by its number in x10. Under a graph of version 3 x4 is
    the mask of stores, and the entry saves the site of its call."""
    stack, shadow = [u_form(0x37, 2, 0x10000)], [u_form(0x37, 3, 0x60000)]
    if graph == 3:
        stack += [u_form(0x37, 4, 0x10000), addi(4, 4, -1)]
    if version == 2:
        stack += [i_form(0x13, 1, 31, 10, 20), r_form(0x33, 0, 0x20, 2, 2, 31)]
        shadow += [i_form(0x13, 1, 31, 10, 16), r_form(0x33, 0, 0, 3, 3, 31)]
    words = [EBREAK] * 3 + stack + shadow + [addi(3, 3, 8)]
    at = CODE + 4 * len(words)
    saved = push(at) if graph < 3 else []
    return words + saved + [jal(1, at + 4 * len(saved), entry), addi(17, 0, 93), ECALL]


def returning(at):
    """A return, which compares its site."""
    return [i_form(0x03, 3, 31, 3, -8), addi(3, 3, -8), branch(0, 31, 1, 8), jal(0, at + 12, BAD_RETURN), i_form(0x67, 0, 0, 31, 0)]


def masked(rs1, imm):
    """The mask of stores."""
    return [addi(31, rs1, imm), i_form(0x13, 1, 31, 31, 36), i_form(0x13, 5, 31, 31, 36)]


def image_file(code, data, version=1):
    shadow = 0x10000 if version == 1 else 0x80000
    start = PAGE + (len(code) + PAGE - 1) // PAGE * PAGE
    head = b"\x7fELF\x02\x01\x01" + bytes(9)
    head += struct.pack("<HHIQQQIHHHHHH", 2, 243, 1, OPENING, 64, 0, 0, 64, 56, 3, 0, 0, 0)
    for flags, offset, address, filesz, memsz in (
        (6, start, 0x10000, len(data), 0xFFF1000), (5, PAGE, CODE, len(code), 0x100000), (6, 0, 0x60000000, 0, shadow)
    ):
        head += struct.pack("<IIQQQQQQ", 1, flags, offset, address, address, filesz, memsz, PAGE)
    return head.ljust(PAGE, b"\0") + code.ljust(start - PAGE, b"\0") + data
