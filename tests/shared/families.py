"""Objects that are hard to read as programs, each family of any size, and a compiled one.

Everything is drawn from a seed, so a family has one object of a size. All are programs.
"""

import os
import random
import subprocess

from tests.shared.elf import (
    CODE_FLAGS, COMMON, DATA_FLAGS, ENTRY, FUNC, HEADER, OBJECT, PROGBITS, RELOCATION, Section, relocation, symbol, with_tables, words)
from tests.shared.instructions import RETURN

ABS64, ADD64, PCREL_HI20, PCREL_LO12_I, RELAX = 2, 36, 23, 24, 51
AUIPC, ADDI = 0x00000297, 0x00028293
MOST_SECTIONS = 0xFEFF


def returns(count):
    return Section(PROGBITS, words(*[RETURN] * count), CODE_FLAGS, align=4)


def shuffled(size):
    """Relocations of data in no order, each to a place of its own."""
    count = size // (RELOCATION + 8)
    code, order = 1 << 12, list(range(count))
    random.Random(count).shuffle(order)
    rows = b"".join(relocation(8 * k, 1, ABS64, 4 * (k % code)) for k in order)
    return with_tables([returns(code), Section(PROGBITS, bytes(8 * count), DATA_FLAGS, align=8)], [(2, rows)],
                       symbol(1, FUNC, 1, 0, 4 * code), b"\0f\0")


def one_place(size):
    """Relocations that all stand at one place of data."""
    rows = relocation(0, 1, ADD64) * (size // RELOCATION)
    parts = [returns(1), Section(PROGBITS, bytes(8), DATA_FLAGS, align=8)]
    return with_tables(parts, [(2, rows)], symbol(1, FUNC, 1, 0, 4), b"\0f\0")


def one_name(size):
    """Symbols of one name."""
    symbols = symbol(1, FUNC, 1, 0, 4) * (size // ENTRY)
    return with_tables([returns(1)], [], symbols, b"\0" + b"n" * 200 + b"\0")


def nested_names(size):
    """Symbols whose names are each other's ends in one long string."""
    count = size // (ENTRY + 1)
    symbols = b"".join(symbol(k, FUNC, 1, 0, 4) for k in range(1, count + 1))
    return with_tables([returns(1)], [], symbols, b"\0" + b"n" * count + b"\0")


def many_sections(size):
    """Many sections of data, with few relocations each."""
    count = min(size // (2 * HEADER + 4 * RELOCATION + 32), (MOST_SECTIONS - 4) // 2)
    each = max(1, size // count // (RELOCATION + 8) - 4)
    parts, tables = [returns(1)], []
    for number in range(2, count + 2):
        parts.append(Section(PROGBITS, bytes(8 * each), DATA_FLAGS, align=8))
        tables.append((number, b"".join(relocation(8 * k, 1, ABS64) for k in range(each))))
    return with_tables(parts, tables, symbol(1, FUNC, 1, 0, 4), b"\0f\0")


def marks(size):
    """Low parts that all name one AUIPC, at which there are as many marks."""
    count = size // (4 + 2 * RELOCATION)
    rows = relocation(0, 0, RELAX) * count + relocation(0, 2, PCREL_HI20)
    rows += b"".join(relocation(4 * k, 1, PCREL_LO12_I) for k in range(1, count + 1))
    code = Section(PROGBITS, words(AUIPC, *[ADDI] * count, RETURN), CODE_FLAGS, align=4)
    return with_tables([code, Section(PROGBITS, bytes(8), DATA_FLAGS, align=8)], [(1, rows)],
                       symbol(1, 0x10, 1, 0) + symbol(3, OBJECT, 2, 0, 8), b"\0l\0d\0")


def commons(size):
    """Commons, each named by a relocation."""
    count = size // (ENTRY + RELOCATION + 8)
    symbols = b"".join(symbol(1, OBJECT, COMMON, 1 << k % 13, 8) for k in range(count))
    rows = b"".join(relocation(8 * k, k + 1, ABS64) for k in range(count))
    return with_tables([returns(1), Section(PROGBITS, bytes(8 * count), DATA_FLAGS, align=8)], [(2, rows)], symbols, b"\0c\0")


def section_names(size):
    """Sections whose names are each other's ends in one long string."""
    count = min(size // (2 * HEADER), MOST_SECTIONS - 4)
    parts = [returns(1)] + [Section(PROGBITS, b"d", DATA_FLAGS, name=k + 1) for k in range(count)]
    return with_tables(parts, [], symbol(1, FUNC, 1, 0, 4), b"\0" + b"n" * (size - HEADER * count) + b"\0")


def sparse(size):
    """Sections of one byte of data, each aligned at 4096."""
    count = min(size // (HEADER + 8), MOST_SECTIONS - 4)
    parts = [returns(1)] + [Section(PROGBITS, b"d", DATA_FLAGS, align=4096) for _ in range(count)]
    return with_tables(parts, [], symbol(1, FUNC, 1, 0, 4), b"\0f\0")


def shared_data(count, size):
    """So many sections of data that all are the same bytes."""
    parts = [returns(1), Section(PROGBITS, bytes(size), DATA_FLAGS)]
    parts += [Section(PROGBITS, b"", DATA_FLAGS, shared=2) for _ in range(count - 1)]
    return with_tables(parts, [], symbol(1, FUNC, 1, 0, 4), b"\0f\0")


def shared_code(count, size):
    """The same of code."""
    parts = [returns(size // 4)] + [Section(PROGBITS, b"", CODE_FLAGS, align=4, shared=1) for _ in range(count - 1)]
    return with_tables(parts, [], symbol(1, FUNC, 1, 0, 4), b"\0f\0")


def shared_relocations(count, each):
    """So many sections of data whose relocations, so many each, all are the same bytes."""
    parts = [returns(1)] + [Section(PROGBITS, bytes(8), DATA_FLAGS, align=8) for _ in range(count)]
    tables = [(2 + k, b"" if k else relocation(0, 1, ABS64) * each) for k in range(count)]
    return with_tables(parts, tables, symbol(1, FUNC, 1, 0, 4), b"\0f\0", shared=2 + count)


def overlapping_data(size):
    """Sections of data that all are the same bytes: half of the file is those, the other half headers."""
    return shared_data(size // 2 // HEADER + 1, size // 2)


def overlapping_code(size):
    """The same of code."""
    return shared_code(size // 2 // HEADER + 1, size // 2)


def overlapping_relocations(size):
    """Sections of data whose relocations all are the same bytes: half of the file, the other half headers."""
    return shared_relocations(size // 2 // (2 * HEADER), size // 2 // RELOCATION)


FAMILIES = [shuffled, one_place, one_name, nested_names, many_sections, marks, commons, section_names,
            sparse]
OVERLAPPING = [overlapping_data, overlapping_code, overlapping_relocations]

GCC = ["riscv64-linux-gnu-gcc", "-march=rv64i", "-mabi=lp64", "-mcmodel=medany", "-O1", "-ffreestanding", "-fno-pic",
       "-fno-stack-protector", "-fno-asynchronous-unwind-tables", "-ffixed-t5", "-ffixed-t6", "-msmall-data-limit=0"]


def source(functions):
    """A program in C: each function reads and writes a table, and calls others, some by a table or in a switch."""
    draw = random.Random(functions)
    lines = ["long table[%d];" % functions]
    lines += ["long f%d(long);" % k for k in range(functions)]
    lines += ["long (*const pointers[])(long) = {%s};" % ", ".join("f%d" % k for k in range(0, functions, 7))]
    for k in range(functions):
        a, b, c = (draw.randrange(functions) for _ in range(3))
        lines += ["long f%d(long n)" % k, "{", "    table[%d] += n ^ %d;" % (k, draw.randrange(1 << 20)),
                  "    if (n < %d) return f%d(n + %d) - f%d(table[%d]);" % (draw.randrange(99), a, draw.randrange(9), b, c)]
        if k % 5 == 0:
            lines += ["    switch (n & 15) {"]
            lines += ["    case %d: return f%d(n >> %d);" % (case, draw.randrange(functions), case) for case in range(9)]
            lines += ["    }"]
        lines += ["    return pointers[n & 7](n << %d);" % draw.randrange(1, 9), "}"]
    return "\n".join(lines) + "\n"


def compiled(folder, functions):
    """The bytes of an object that gcc makes of so many functions."""
    text, made = os.path.join(folder, "compiled.c"), os.path.join(folder, "compiled.o")
    with open(text, "w") as out:
        out.write(source(functions))
    subprocess.run(GCC + ["-c", text, "-o", made], check=True)
    with open(made, "rb") as file:
        return file.read()
