#!/usr/bin/env python3
"""Prints the rows of crates/test_word/src/relocation.rt that binutils give: `python3 tests/relocations/rows.py [--check]`.

Each is assembled and linked, and read back from the linked file; `None` where the linker refuses the value. A value is the address of a
symbol, or for the PCREL kinds its distance from the AUIPC. Other rows of the file are by hand.
"""

import os
import subprocess
import sys
import tempfile
from pathlib import Path

sys.dont_write_bytecode = True
sys.path.insert(0, str(Path(__file__).resolve().parents[2]))

from tests.shared import tables

TOOLS = "riscv64-linux-gnu-"
TEXT, DATA = 0x40000044, 0x10000
PATCHES = {"HI20": "Hi20", "LO12_I": "Lo12I", "LO12_S": "Lo12S", "PCREL_HI20": "PcrelHi20", "PCREL_LO12_I": "Lo12I", "PCREL_LO12_S": "Lo12S",
           "32": "Abs32", "64": "Abs64"}

CODE = [
    ("HI20", 0x000002B7, 0x10000),
    ("HI20", 0xFFFFF537, 0x12345FFF),
    ("HI20", 0x000002B7, 0x123457FF),
    ("HI20", 0x000002B7, 0x12345800),
    ("HI20", 0x00000FB7, 0x7FFFF7FF),
    ("HI20", 0x00000FB7, -0x80000800),
    ("HI20", 0x00000FB7, -1),
    ("HI20", 0x00000FB7, -0x801),
    ("HI20", 0x00000FB7, 0x7FFFF800),
    ("HI20", 0x00000FB7, -0x80000801),
    ("LO12_I", 0x0002B283, 0x10008),
    ("LO12_I", 0xFFF58593, 0x123457FF),
    ("LO12_I", 0x00058593, 0x12345800),
    ("LO12_I", 0x00058593, -0x801),
    ("LO12_S", 0x00A33023, 0x12345FFF),
    ("LO12_S", 0xFEA33FA3, 0x12345800),
    ("LO12_S", 0x00A33023, 0x10018),
    ("LO12_S", 0xFFF33023, -0x80000000),
    ("PCREL_HI20", 0x00000597, -0x3FFF0094),
    ("PCREL_HI20", 0xABCDE597, 0x7FFFF7FF),
    ("PCREL_HI20", 0x00000597, 0x800),
    ("PCREL_HI20", 0x00000597, -0x800),
    ("PCREL_HI20", 0x00000597, 0x7FFFF800),
    ("PCREL_LO12_I", 0x00058593, -0x3FFF0094),
    ("PCREL_LO12_S", 0x00B5A023, -0x3FFF0094),
]

RUN = "0123456789abcdef"
FULL = "ffffffffffffffff"
DATA_ROWS = [
    ("32", RUN, 0x400000C8), ("32", RUN, 0xFFFFFFFF), ("32", RUN, -0x80000000),
    ("64", RUN, 0x400000C8), ("64", RUN, -2), ("64", RUN, 0xFEDCBA9876543210),
    ("ADD8", FULL, 1), ("ADD8", RUN, 0x1FF), ("ADD16", FULL, 2), ("ADD16", RUN, -0x2302),
    ("ADD32", FULL, 3), ("ADD32", RUN, 0x400000C8), ("ADD64", FULL, 0x10), ("ADD64", RUN, -0x10),
    ("SUB8", RUN, 2), ("SUB8", "00" * 8, 1), ("SUB16", RUN, 0x2302), ("SUB16", "00" * 8, 1),
    ("SUB32", RUN, 0x400000C8), ("SUB32", "00" * 8, 1), ("SUB64", "00" * 8, 1), ("SUB64", RUN, -0x10),
]


def link(folder, source, section, symbol):
    """The section's bytes after linking, or nothing where the linker refuses a value."""
    paths = [os.path.join(folder, name) for name in ("a.s", "a.o", "a.out", "a.bin")]
    with open(paths[0], "w") as out:
        out.write(source)
    subprocess.run([TOOLS + "as", "-march=rv64i", "-mabi=lp64", "-mno-relax", paths[0], "-o", paths[1]], check=True)
    done = subprocess.run(
        [TOOLS + "ld", "--no-relax", "-e", "0", "-Ttext=%#x" % TEXT, "-Tdata=%#x" % DATA,
         "--defsym", "value=%#x" % (symbol % 2**64), paths[1], "-o", paths[2]],
        capture_output=True, text=True)
    if done.returncode != 0:
        assert "truncated to fit" in done.stderr, done.stderr
        return None
    subprocess.run([TOOLS + "objcopy", "-O", "binary", "-j", section, paths[2], paths[3]], check=True)
    with open(paths[3], "rb") as got:
        return got.read()


def code_row(folder, kind, word, value):
    symbol, lines = value, [".text"]
    if kind.startswith("PCREL"):
        symbol = TEXT + value
    if kind.startswith("PCREL_LO12"):
        lines += ["here: .reloc here, R_RISCV_PCREL_HI20, value", ".word 0x597"]
        lines += ["low: .reloc low, R_RISCV_%s, here" % kind, ".word %#x" % word]
    else:
        lines += ["here: .reloc here, R_RISCV_%s, value" % kind, ".word %#x" % word]
    got = link(folder, "\n".join(lines) + "\n", ".text", symbol)
    after = "None" if got is None else "Some(0x%08x)" % int.from_bytes(got[-4:], "little")
    return "(CodePatch::%s, 0x%08x, %#x, %s)," % (PATCHES[kind], word, value, after)


def data_row(folder, kind, before, value):
    bytes_ = ", ".join("0x" + before[at : at + 2] for at in range(0, len(before), 2))
    source = ".data\nhere: .reloc here, R_RISCV_%s, value\n.byte %s\n" % (kind, bytes_)
    got = link(folder, source, ".data", value)
    return "(DataPatch::%s, 0x%s, %#x, Some(0x%s))," % (PATCHES.get(kind, kind.title()), before, value, got.hex())


def rows(make, given):
    """Rows stand by themselves, since others stand between them."""
    with tempfile.TemporaryDirectory() as folder:
        return "\n\n".join(make(folder, *each) for each in given)


TABLES = {"code": ("test_word/src/relocation.rt", lambda: rows(code_row, CODE)),
          "data": ("test_word/src/relocation.rt", lambda: rows(data_row, DATA_ROWS))}


if __name__ == "__main__":
    sys.exit(tables.main(__doc__, TABLES))
