"""The small objects of crates/sample_objects, each written down by hand, instruction by instruction, with the kind of each place and
where direct transfers go; tests/objects/make_samples.py prints them.

The words are made by the tables of the RISC-V unprivileged specification, the files by those of ELF64. A line of a program is one of

    SECTION OFFSET KIND WORD [to PLACE] [taken]     a place: of a pair the word is that of its JALR
    function SECTION OFFSET SIZE
    data SIZE END
"""

import struct

from tests.shared.elf import CODE_FLAGS, PROGBITS, RELA, STRTAB, SYMTAB, Section, object_file
from tests.shared.instructions import ECALL, RETURN, add, addi, auipc, beq, jalr, jump, ld, lui, sd, slli

FUNC, OBJECT, NOTYPE, SECTION = 2, 1, 0, 3
ABS = 0xFFF1
ABS64, CALL_PLT, GOT_HI20, PCREL_HI20, PCREL_LO12_I, PCREL_LO12_S, HI20, LO12_I, LO12_S, RELAX = 2, 19, 20, 23, 24, 25, 26, 27, 28, 51
DATA_START = 0x10000


class Object:
    """Code in section 1 and, if there are any, data in section 2. `places` are (words, kind, text behind the word); the table
    of addresses has so many slots."""

    def __init__(self, name, places, symbols, relocations, data=b"", flags=0, moved=(), slots=0):
        self.name, self.places, self.symbols, self.data, self.flags = name, places, symbols, data, flags
        self.relocations, self.moved, self.slots = relocations, moved, slots

    def program(self):
        lines, offset = [], 0
        for words, kind, more in self.places:
            lines.append("1 %d %s %x%s" % (offset, kind, words[-1], more))
            offset += 4 * len(words)
        lines.append("1 %d end 0" % offset)
        lines += ["function 1 %d %d" % (value, size) for _, kind, place, value, size in self.symbols if kind == FUNC]
        size = len(self.data) + 8 * self.slots
        return lines + ["data %d %d" % (size, DATA_START + size)]

    def file(self):
        code = b"".join(struct.pack("<I", word) for words, _, _ in self.places for word in words)
        names, entries = b"\0", struct.pack("<IBBHQQ", 0, 0, 0, 0, 0, 0)
        for name, kind, place, value, size in self.symbols:
            at = len(names) if name else 0
            names += name.encode() + b"\0" if name else b""
            entries += struct.pack("<IBBHQQ", at, (kind != SECTION) << 4 | kind, 0, place, value, size)
        number = {symbol[0]: index for index, symbol in enumerate(self.symbols, 1) if symbol[0]}

        def table(rows):
            return b"".join(struct.pack("<QQq", at, (number[to] if to else 0) << 32 | kind, 0) for at, kind, to in rows)

        parts = [Section(PROGBITS, code, CODE_FLAGS, align=4)]
        if self.data:
            parts.append(Section(PROGBITS, self.data, self.flags, align=8))
        tables = [(1, self.relocations), (2, self.moved)]
        symtab = 1 + len(parts) + sum(bool(rows) for _, rows in tables)
        parts += [Section(RELA, table(rows), link=symtab, info=index, align=8, entry=24) for index, rows in tables if rows]
        locals_end = 1 + sum(kind == SECTION for _, kind, _, _, _ in self.symbols)
        return object_file([*parts, Section(SYMTAB, entries, link=symtab + 1, info=locals_end, align=8, entry=24), Section(STRTAB, names)])


def made(name, words, symbols, relocations, pointers):
    """An object of these words, whose pointers are to these symbols. Of each symbol the place and the size are told."""
    rows = [(each, kind, 2 if kind == OBJECT else 1, value, size) for each, kind, value, size in symbols]
    return Object(name, [([word], "", "") for word in words], rows, relocations, bytes(8 * len(pointers)), 3,
                  [(8 * k, ABS64, to) for k, to in enumerate(pointers)])


B = Object("B", [([addi(10, 0, 7)], "plain", ""), ([RETURN], "return", "")], [("main", NOTYPE, 1, 0, 0)], [])

P = Object(
    "P",
    [([addi(2, 2, -16)], "plain", ""), ([sd(1, 2, 8)], "store", ""), ([lui(5, 0)], "plain", ""),
     ([ld(5, 5, 0)], "plain", ""), ([jalr(1, 5)], "icall", ""), ([ld(1, 2, 8)], "plain", ""),
     ([addi(2, 2, 16)], "plain", ""), ([RETURN], "return", ""),
     ([addi(10, 0, 1)], "plain", " taken"), ([RETURN], "return", ""),
     ([addi(10, 0, 2)], "plain", " taken"), ([RETURN], "return", "")],
    [("main", FUNC, 1, 0, 32), ("f", FUNC, 1, 32, 8), ("g", FUNC, 1, 40, 8), ("ptr", OBJECT, 2, 0, 16)],
    [(8, HI20, "ptr"), (12, LO12_I, "ptr")], bytes(16), 3, [(0, ABS64, "f"), (8, ABS64, "g")])

H = Object(
    "H",
    [([addi(2, 2, -16)], "plain", ""), ([sd(1, 2, 8)], "store", ""), ([auipc(1, 0), jalr(1, 1)], "call", " to 7"),
     ([addi(10, 0, 0)], "plain", ""), ([ld(1, 2, 8)], "plain", ""), ([addi(2, 2, 16)], "plain", ""),
     ([RETURN], "return", ""),
     ([auipc(11, 0)], "plain", ""), ([addi(11, 11, 0)], "plain", ""), ([addi(10, 0, 1)], "plain", ""),
     ([addi(12, 0, 3)], "plain", ""), ([addi(17, 0, 64)], "plain", ""), ([ECALL], "system", ""),
     ([RETURN], "return", "")],
    [("main", FUNC, 1, 0, 32), ("put", FUNC, 1, 32, 28), (".L0", NOTYPE, 1, 32, 0), ("msg", OBJECT, 2, 0, 3)],
    [(8, CALL_PLT, "put"), (8, RELAX, ""), (32, PCREL_HI20, "msg"), (32, RELAX, ""), (36, PCREL_LO12_I, ".L0"),
     (36, RELAX, "")],
    b"hi\n", 2)

# Two symbols have one name, one has none, and one is a number.
R = Object(
    "R",
    [([lui(10, 2)], "plain", ""), ([addi(10, 10, -2)], "plain", ""), ([jump(0, 4)], "jump", " to 3"),
     ([beq(10, 0, 28)], "branch", " to 10"), ([addi(2, 2, -16)], "plain", ""), ([sd(1, 2, 8)], "store", ""),
     ([addi(10, 10, -1)], "plain", ""), ([jump(1, -16)], "call", " to 3"), ([ld(1, 2, 8)], "plain", ""),
     ([addi(2, 2, 16)], "plain", ""), ([RETURN], "return", "")],
    [("", SECTION, 1, 0, 0), ("main", FUNC, 1, 0, 12), ("rec", FUNC, 1, 12, 32), ("rec", NOTYPE, 1, 40, 0),
     ("limit", OBJECT, ABS, 8190, 0)], [])

T = Object(
    "T",
    [([auipc(5, 0)], "plain", ""), ([ld(5, 5, 0)], "plain", ""), ([jalr(0, 5)], "ijump", ""),
     ([addi(10, 0, 4)], "plain", " taken"), ([RETURN], "return", "")],
    [("main", FUNC, 1, 0, 12), ("f", FUNC, 1, 12, 8)], [(0, GOT_HI20, "f"), (4, PCREL_LO12_I, "main")], slots=1)

# Jumps through a pointer to one of two functions; a third one, which nobody calls, has a computed call.
Q = made(
    "Q",
    [lui(5, 0), ld(5, 5, 0), jalr(0, 5), addi(10, 0, 1), RETURN, addi(10, 0, 2), RETURN, jalr(1, 5), RETURN],
    [("main", FUNC, 0, 12), ("f", FUNC, 12, 8), ("g", FUNC, 20, 8), ("h", FUNC, 28, 8), ("ptr", OBJECT, 0, 16)],
    [(0, HI20, "ptr"), (4, LO12_I, "ptr")], ["f", "g"])

# Calls through a pointer, and then jumps through another one; a third function is pointed to by none.
APART = made(
    "APART",
    [addi(2, 2, -16), sd(1, 2, 8), lui(5, 0), ld(5, 5, 0), jalr(1, 5), ld(1, 2, 8), addi(2, 2, 16), lui(5, 0), ld(5, 5, 0),
     jalr(0, 5), addi(10, 10, 1), RETURN, addi(10, 10, 2), RETURN, addi(10, 10, 4), RETURN],
    [("main", FUNC, 0, 40), ("called", FUNC, 40, 8), ("jumped", FUNC, 48, 8), ("both", FUNC, 56, 8), ("first", OBJECT, 0, 8),
     ("second", OBJECT, 8, 8)],
    [(8, HI20, "first"), (12, LO12_I, "first"), (28, HI20, "second"), (32, LO12_I, "second")], ["called", "jumped"])

# Two computed calls and two computed jumps, and `lui x0,2`, which is the word of a label.
SORTS = made(
    "SORTS",
    [lui(5, 0), ld(5, 5, 0), jalr(1, 5), jalr(1, 6), jalr(0, 5), jalr(0, 6), lui(0, 2), RETURN],
    [("main", FUNC, 0, 20), ("f", FUNC, 20, 4), ("g", FUNC, 24, 8), ("ptr", OBJECT, 0, 16)],
    [(0, HI20, "ptr"), (4, LO12_I, "ptr")], ["f", "g"])

# Calls a function twice that jumps by a table, to a return and to a tail call through a pointer; then calls through a pointer.
TABLE = made(
    "TABLE",
    [addi(2, 2, -16), sd(1, 2, 8), jump(1, 32), jump(1, 28), lui(5, 0), ld(5, 5, 0), jalr(1, 5), ld(1, 2, 8), addi(2, 2, 16), RETURN,
     slli(5, 10, 3), lui(6, 0), add(5, 5, 6), ld(5, 5, 0), jalr(0, 5), addi(10, 10, 1), RETURN,
     lui(5, 0), ld(5, 5, 0), jalr(0, 5), addi(10, 10, 10), RETURN, addi(10, 10, 5), RETURN],
    [("main", FUNC, 0, 40), ("choose", FUNC, 40, 40), ("f", FUNC, 80, 8), ("g", FUNC, 88, 8), ("first", NOTYPE, 60, 0),
     ("second", NOTYPE, 68, 0), ("table", OBJECT, 0, 16), ("tail", OBJECT, 16, 8), ("called", OBJECT, 24, 8)],
    [(16, HI20, "called"), (20, LO12_I, "called"), (44, HI20, "table"), (52, LO12_I, "table"), (68, HI20, "tail"), (72, LO12_I, "tail")],
    ["first", "second", "f", "g"])

# Calls through a pointer. Among its stores are the target of a jump, that of a branch, one that data point to, the first of a function
# that is called through the pointer, the first of one that is called, and one at which a symbol stands.
LED = made(
    "LED",
    [addi(2, 2, -64), sd(1, 2, 56), sd(8, 2, 48), lui(5, 0), ld(5, 5, 0), jalr(1, 5), beq(10, 0, 16), jump(0, 8), sd(6, 2, 0),
     sd(6, 2, 8), sd(6, 2, 16), sd(7, 2, 24), sd(7, 2, 32), sd(7, 2, 40), jump(1, 28), ld(1, 2, 56), ld(8, 2, 48), addi(2, 2, 64),
     sd(1, 2, -8), sd(1, 2, -16), sd(8, 2, -24), sd(8, 2, -32), sd(8, 2, -40), addi(10, 10, 1), RETURN],
    [("main", FUNC, 0, 76), ("inner", NOTYPE, 8, 0), ("taken", NOTYPE, 48, 0), ("f", FUNC, 76, 24), ("s", FUNC, 84, 16),
     ("ptr", OBJECT, 0, 16)],
    [(12, HI20, "ptr"), (16, LO12_I, "ptr")], ["f", "taken"])

# Stores whose offsets come from relocations, of the address of data and of its distance, and others between them.
PATCHED = Object(
    "PATCHED",
    [([word], "", "") for word in (lui(5, 0), sd(6, 5, 0), sd(7, 5, 0), sd(7, 5, 16), sd(7, 5, 24), sd(6, 5, 0), auipc(5, 0),
                                   sd(6, 5, 0), sd(0, 5, 8), sd(0, 5, 0), RETURN)],
    [("main", FUNC, 1, 0, 44), ("high", NOTYPE, 1, 24, 0), ("first", OBJECT, 2, 0, 8), ("second", OBJECT, 2, 8, 8)],
    [(0, HI20, "first"), (4, LO12_S, "first"), (8, LO12_S, "second"), (20, LO12_S, "first"), (24, PCREL_HI20, "second"),
     (28, PCREL_LO12_S, "high")],
    b"the first the second and others.", 3)
