#!/usr/bin/env python3
"""The object that `demo` makes of a number, written a second time, from the rules alone.

    python3 tests/demo/object_of.py [--check]

prints the rows of crates/test_tool/src/sums.rt: of some numbers their objects' lengths, and the FNV-1a hashes (64 bits) of their bytes.
"""

import struct
import sys
from pathlib import Path

sys.dont_write_bytecode = True
sys.path.insert(0, str(Path(__file__).resolve().parents[2]))

from tests.shared import tables

FUNCTIONS = 2000
BLOCK = 50
HI20, LO12_I, CALL_PLT, RELAX, ABS64 = 26, 27, 19, 51, 2
TABLE = 2  # the number of the symbol `table`
FIRST = 3  # that of f0

OPCODES = {"lui": 0x37, "auipc": 0x17, "jalr": 0x67, "ld": 0x03, "sd": 0x23, "addi": 0x13, "bne": 0x63}
FUNCT3 = {"jalr": 0, "ld": 3, "sd": 3, "addi": 0, "bne": 1}


def assembled(text):
    """The word of an instruction: `addi x2,x2,-32`, `ld x5,0(x8)`, `bne x8,x9,-12`, `lui x8,0`."""
    name, operands = text.split()
    parts = operands.replace("(", ",").replace(")", "").split(",")
    if name in ("ld", "sd", "jalr"):  # REGISTER,OFFSET(BASE)
        parts = [parts[0], parts[2], parts[1]]
    *registers, immediate = parts
    registers = [int(register[1:]) for register in registers]
    immediate = int(immediate)
    word = OPCODES[name] | FUNCT3.get(name, 0) << 12
    if name in ("lui", "auipc"):
        return word | registers[0] << 7 | (immediate & 0xFFFFF) << 12
    if name == "sd":
        return word | registers[1] << 15 | registers[0] << 20 | (immediate & 31) << 7 | (immediate >> 5 & 127) << 25
    if name == "bne":
        word |= registers[0] << 15 | registers[1] << 20
        word |= (immediate >> 11 & 1) << 7 | (immediate >> 1 & 15) << 8
        return word | (immediate >> 5 & 63) << 25 | (immediate >> 12 & 1) << 31
    return word | registers[0] << 7 | registers[1] << 15 | (immediate & 0xFFF) << 20


def drawn(state):
    """The state after a draw."""
    return (1103515245 * state + 12345) % 2**31


def main_lines():
    """`main`: lines of text, each with its relocations (kind, symbol, addend)."""
    return [
        ("addi x2,x2,-32",), ("sd x1,24(x2)",), ("sd x8,16(x2)",), ("sd x9,8(x2)",),
        ("lui x8,0", (HI20, TABLE, 0)), ("addi x8,x8,0", (LO12_I, TABLE, 0)),
        ("lui x9,0", (HI20, TABLE, 16000)), ("addi x9,x9,0", (LO12_I, TABLE, 16000)),
        ("ld x5,0(x8)",), ("jalr x1,0(x5)",), ("addi x8,x8,8",), ("bne x8,x9,-12",),
        ("ld x9,8(x2)",), ("ld x8,16(x2)",), ("ld x1,24(x2)",), ("addi x2,x2,32",), ("jalr x0,0(x1)",),
    ]  # fmt: skip


def body(kind, j):
    """What a function does between its sum and its return."""
    if kind == 1:
        return [("auipc x1,0", (CALL_PLT, FIRST + j, 0), (RELAX, 0, 0)), ("jalr x1,0(x1)",)]
    if kind == 2:
        return [("lui x5,0", (HI20, TABLE, 8 * j)), ("ld x5,0(x5)", (LO12_I, TABLE, 8 * j)), ("jalr x1,0(x5)",)]
    if kind == 3:
        return [("bne x10,x0,8",), ("addi x10,x10,1",)]
    return []


def functions(number):
    """Yields the lines of each function."""
    state = number
    for i in range(FUNCTIONS):
        draws = []
        for _ in range(3):
            state = drawn(state)
            draws.append(state // 65536)
        amount, kind, j = draws[0] % 2048, draws[1] % 4, i + 1 + draws[2] % 8
        if j // BLOCK != i // BLOCK and kind in (1, 2):
            kind = 0
        opening = [("addi x2,x2,-16",), ("sd x1,8(x2)",), ("addi x10,x10,%d" % amount,)]
        closing = [("ld x1,8(x2)",), ("addi x2,x2,16",), ("jalr x0,0(x1)",)]
        yield opening + body(kind, j) + closing


def program(number):
    """The words, relocations (offset, kind, symbol, addend) and functions (name, offset, size) of the code."""
    words, relocations, names = [], [], []
    routines = [("main", main_lines())]
    routines += [("f%d" % i, lines) for i, lines in enumerate(functions(number))]
    for name, lines in routines:
        names.append((name, 4 * len(words), 4 * len(lines)))
        for text, *marks in lines:
            relocations += [(4 * len(words), *mark) for mark in marks]
            words.append(assembled(text))
    return words, relocations, names


def name_table(names):
    """The bytes of a table of names, and where each begins."""
    table, places = b"\0", []
    for name in names:
        places.append(len(table))
        table += name.encode() + b"\0"
    return table, places


def rela(relocations):
    return b"".join(struct.pack("<QQq", offset, symbol << 32 | kind, addend) for offset, kind, symbol, addend in relocations)


def symbols(names):
    """The tables of symbols and of their names."""
    (main, start, size), *rest = names
    table = [(main, 0x12, 1, start, size), ("table", 0x11, 2, 0, 8 * FUNCTIONS)]
    table += [(name, 0x12, 1, start, size) for name, start, size in rest]
    strings, places = name_table(symbol[0] for symbol in table)
    entries = b"\0" * 24
    for place, (_, info, section, value, size) in zip(places, table):
        entries += struct.pack("<IBBHQQ", place, info, 0, section, value, size)
    return entries, strings


def object_of(number):
    """The object's bytes: the ELF header, the contents and the section headers, each at the next multiple of 8."""
    words, relocations, names = program(number)
    entries, strings = symbols(names)
    pointers = rela((8 * i, ABS64, FIRST + i, 0) for i in range(FUNCTIONS))
    # name, type, flags, content, link, info, alignment, size of an entry
    sections = [
        (".text", 1, 6, struct.pack("<%dI" % len(words), *words), 0, 0, 4, 0),
        (".data", 1, 3, b"\0" * (8 * FUNCTIONS), 0, 0, 8, 0),
        (".rela.text", 4, 0, rela(relocations), 5, 1, 8, 24),
        (".rela.data", 4, 0, pointers, 5, 2, 8, 24),
        (".symtab", 2, 0, entries, 6, 1, 8, 24),
        (".strtab", 3, 0, strings, 0, 0, 1, 0),
    ]
    section_names, places = name_table([section[0] for section in sections] + [".shstrtab"])
    sections.append((".shstrtab", 3, 0, section_names, 0, 0, 1, 0))
    file, headers = b"\0" * 64, b"\0" * 64
    for place, (_, kind, flags, content, link, info, alignment, size) in zip(places, sections):
        file += b"\0" * (-len(file) % 8)
        headers += struct.pack("<IIQQQQIIQQ", place, kind, flags, 0, len(file), len(content), link, info, alignment, size)
        file += content
    file += b"\0" * (-len(file) % 8)
    ident = b"\x7fELF\x02\x01\x01" + b"\0" * 9
    header = ident + struct.pack("<HHIQQQIHHHHHH", 1, 243, 1, 0, 0, len(file), 0, 64, 0, 0, 64, 8, 7)
    return header + file[64:] + headers


def sums():
    rows = ((number, object_of(number)) for number in (0, 1, 12345, 1000000000))
    found = ["    (%d, %d, 0x%016x)," % (number, len(data), tables.fnv(data)) for number, data in rows]
    return "static SUMS: [(u32, usize, u64); %d] = [\n%s\n];\n" % (len(found), "\n".join(found))


TABLES = {"sums": ("test_tool/src/sums.rt", sums)}

if __name__ == "__main__":
    sys.exit(tables.main(__doc__, TABLES))
