#!/usr/bin/env python3
"""Prints the words of the prologue and of each test's units, as binutils for RISC-V make them of the sources beside this:
`python3 tests/units/words.py [--check] [NAME ..]`. They stand in crates/, each table under a name of its own."""

import subprocess
import sys
import tempfile
from pathlib import Path

sys.dont_write_bytecode = True
sys.path.insert(0, str(Path(__file__).resolve().parents[2]))

from tests.shared import tables

HERE, GNU = Path(__file__).resolve().parent, "riscv64-linux-gnu-"
ONE = """b h p other exits deep loop astray break load status edge aimed relabelled narrow nowhere jump echo near skips round second q apart
joined behind stores groups long last""".split()
SEVERAL = "b shared jobs q apart".split()
FIRST = {"long": -1, "last": 22}  # of these only some words stand there: the last one, and so many of the first


def words(name, address):
    """The words of a source, linked at an address."""
    with tempfile.TemporaryDirectory() as folder:
        made, linked, flat = (str(Path(folder) / each) for each in ("o", "x", "t"))
        for command in (["as", "-march=rv64i", "-mabi=lp64", "-mno-relax", "-I", str(HERE), "-o", made, str(HERE / (name + ".s"))],
                        ["ld", "--no-relax", "-e", "0", "-Ttext=%#x" % address, "-o", linked, made],
                        ["objcopy", "-O", "binary", "-j", ".text", linked, flat]):
            subprocess.run([GNU + command[0], *command[1:]], check=True)
        code = Path(flat).read_bytes()
    return [int.from_bytes(code[at:at + 4], "little") for at in range(0, len(code), 4)]


def table(name, address):
    """What stands in crates/ behind a constant's name."""
    found = words(name, address)
    return "units.push(0x%08x)?;" % found[-1] if name == "long" else tables.words("", found[:FIRST.get(name)])


def named(names, address, end=""):
    return {name + end: ("[st]*/src/*.rt", lambda name=name: table(name, address)) for name in names}


TABLES = {**named(["prologue", "prologue_of_harts"], 0x40000000), **named(ONE, 0x40000040), **named(SEVERAL, 0x40000050, "_of_harts")}


if __name__ == "__main__":
    sys.exit(tables.main(__doc__, TABLES))
