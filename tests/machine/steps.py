#!/usr/bin/env python3
"""Prints the table of crates/test_machine/src/steps.rt: `python3 tests/machine/steps.py [--check]`.

Each instruction of steps.s is assembled by GNU binutils into a program that loads x10 to x12,
points x13 to 16 bytes, and stands at the addresses that the machine of rv_machine has for code and
data; qemu runs it. The words about it are jumps to an end that tells, by their link, where the
instruction went, and writes that with x12 and the 8 bytes at x13. Products and quotients follow, each
of the same numbers: 0, 1, -1, the least numbers of both widths, and others drawn from a seed.
"""

import random
import subprocess
import sys
import tempfile
from concurrent.futures import ThreadPoolExecutor
from pathlib import Path

sys.dont_write_bytecode = True
sys.path.insert(0, str(Path(__file__).resolve().parents[2]))

from tests.shared import tables

HERE = Path(__file__).parent
TOOLS = "riscv64-linux-gnu-"
CODE, DATA, TESTED = 0x40000000, 0x10000, 0x40000020
X12 = 0x0123456789ABCDEF
BYTES = bytes.fromhex("8091a2b3c4d5e6f708192a3b4c5d6e7f")

PROGRAM = """
    .option norelax
    .option norvc
    .globl _start
    .text
    .rept 3
    jal x31, ended
    .endr
_start:
    lui x5, 0x10
    ld x10, 0(x5)
    ld x11, 8(x5)
    ld x12, 16(x5)
    addi x13, x5, 32
    {line}
    .rept 64
    jal x31, ended
    .endr
ended:
    lui x6, 0x10
    addi x31, x31, -4
    ld x7, 32(x6)
    sd x12, 0(x6)
    sd x31, 8(x6)
    sd x7, 16(x6)
    addi x10, x0, 1
    addi x11, x6, 0
    addi x12, x0, 24
    addi x17, x0, 64
    ecall
    addi x10, x0, 0
    addi x17, x0, 93
    ecall
    .data
    .quad {a}, {b}, {x12}, 0
    .byte {bytes}
"""

PRODUCTS = "mul mulh mulhsu mulhu div divu rem remu mulw divw divuw remw remuw".split()
ALL, LEAST, LEAST_WORD = 2**64 - 1, 2**63, 2**31
EDGES = [
    (0, 0), (0xFEDCBA9876543210, 0), (1, ALL), (ALL, 1), (ALL, ALL), (LEAST, ALL), (ALL, LEAST),
    (LEAST, LEAST), (LEAST_WORD, ALL), (2**64 - LEAST_WORD, 2**32 - 1), (2**32 + LEAST_WORD, 2**32),
]


def operands():
    """What is multiplied and divided: edges, then drawn numbers of each pair of signs, long by short."""
    draw = random.Random(64)
    return EDGES + [
        (draw.getrandbits(63) | a << 63, draw.getrandbits(size) | b << 63)
        for a, b, size in ((0, 1, 63), (1, 0, 20), (1, 1, 40))
    ]


def rows():
    """Each instruction of the source with its x10 and x11, then each product and quotient."""
    for line in (HERE / "steps.s").read_text().splitlines():
        if line.startswith(" "):
            text, _, values = line.strip().partition(" # ")
            a, b = (int(value, 0) for value in values.split())
            yield text, a, b
    for name in PRODUCTS:
        for a, b in operands():
            yield f"{name} x12, x10, x11", a, b


def executed(line, a, b):
    """The instruction's word, and what it leaves: x12, the next pc, the 8 bytes at x13."""
    source = PROGRAM.format(line=line, a=a, b=b, x12=X12, bytes=", ".join(map(str, BYTES)))
    with tempfile.TemporaryDirectory() as folder:
        text, made, linked, flat = (f"{folder}/{name}" for name in ("s", "o", "elf", "bin"))
        Path(text).write_text(source)
        run = lambda *words: subprocess.run(words, check=True, stdout=subprocess.PIPE).stdout
        run(TOOLS + "as", "-march=rv64im", "-o", made, text)
        run(TOOLS + "ld", "--no-relax", f"-Ttext={CODE:#x}", f"-Tdata={DATA:#x}", "-o", linked, made)
        run(TOOLS + "objcopy", "-O", "binary", "-j", ".text", linked, flat)
        at = TESTED - CODE
        word = int.from_bytes(Path(flat).read_bytes()[at : at + 4], "little")
        told = run("qemu-riscv64", linked)
    return word, *(int.from_bytes(told[k : k + 8], "little") for k in (0, 8, 16))


def row(given):
    line, a, b = given
    word, x12, pc, after = executed(line, a, b)
    return "%s %x %x %x %x %x %x" % (line.split()[0], word, a, b, x12, pc, after)


def steps():
    with ThreadPoolExecutor() as pool:
        return tables.text("const STEPS", pool.map(row, rows()))


TABLES = {"steps": ("test_machine/src/steps.rt", steps)}


if __name__ == "__main__":
    sys.exit(tables.main(__doc__, TABLES))
