#!/usr/bin/env python3
"""Prints the two tables of crates/test_word/src/words.rt: `python3 tests/words/table.py [--check]`.

The words are those that GNU binutils makes of words.s and others.s; what each word of words.s has
to mean is read from its line of source.
"""

import re
import subprocess
import sys
import tempfile
from pathlib import Path

sys.dont_write_bytecode = True
sys.path.insert(0, str(Path(__file__).resolve().parents[2]))

from tests.shared import tables

HERE = Path(__file__).parent
TOOLS = "riscv64-linux-gnu-"


def words(source, march):
    """The words of a source, linked far from 0, so that every offset is resolved."""
    with tempfile.TemporaryDirectory() as folder:
        made, linked, flat = (f"{folder}/{name}" for name in ("o", "elf", "bin"))
        run = lambda *line: subprocess.run(line, check=True)
        run(TOOLS + "as", f"-march={march}", "-o", made, str(HERE / source))
        run(TOOLS + "ld", "--no-relax", "-Ttext=0x10000000", "-e", "0x10000000", "-o", linked, made)
        run(TOOLS + "objcopy", "-O", "binary", "-j", ".text", linked, flat)
        code = Path(flat).read_bytes()
    return [int.from_bytes(code[at : at + 4], "little") for at in range(0, len(code), 4)]


def lines(source):
    """The lines of a source that are instructions."""
    text = (HERE / source).read_text().splitlines()
    return [line.strip() for line in text if line.startswith(" ") and ".option" not in line]


def fields(operands):
    """Registers as they stand, then a number: an offset from here is halved."""
    registers = [int(r) for r in re.findall(r"\bx(\d+)\b", operands)]
    rest = re.sub(r"\bx\d+\b", "", operands)
    numbers = re.findall(r"\.?[+-]?(?:0x[0-9a-f]+|\d+)", rest)
    if not numbers:
        return registers, None
    number = int(numbers[0].lstrip("."), 0)
    return registers, number // 2 if numbers[0].startswith(".") else number


def row(word, line):
    """Word, name, registers in the order of the instruction's fields, immediate's bits."""
    name, _, operands = line.partition(" ")
    if name in (".insn", "fence", "fence.tso"):
        return word, "fence", 0, 0, 0
    registers, number = fields(operands)
    if name in ("sb", "sh", "sw", "sd"):
        registers.reverse()
    if len(registers) == 3:
        number = registers.pop()
    registers += [0] * (2 - len(registers))
    bits = 20 if name in ("lui", "auipc", "jal") else 12
    return word, name, registers[0], registers[1], (number or 0) % 2**bits


def told():
    made, source = words("words.s", "rv64im"), lines("words.s")
    assert len(made) == len(source)
    rows = [row(word, line) for word, line in zip(made, source)]
    return tables.text("const WORDS", ["%s %08x %x %x %x" % (name, word, *rest) for word, name, *rest in rows])


def others():
    made = words("others.s", "rv64g_zba_zbb_zbs")
    assert len(made) == len(lines("others.s"))
    return tables.words("static OTHERS", made)


TABLES = {"words": ("test_word/src/words.rt", told), "others": ("test_word/src/words.rt", others)}


if __name__ == "__main__":
    sys.exit(tables.main(__doc__, TABLES))
