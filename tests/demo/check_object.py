#!/usr/bin/env python3
"""Checks a file that holds the object of a number: check_object.py NUMBER FILE.

Its bytes are those that object_of.py makes. GNU readelf and objdump for RISC-V read it without a complaint, and what they
print of its sections and symbols, and of each function's instructions and relocations, is what the rules say.
"""

import re
import subprocess
import sys
from pathlib import Path

sys.dont_write_bytecode = True
sys.path.insert(0, str(Path(__file__).resolve().parents[2]))

from tests.demo import object_of

KINDS = {26: "R_RISCV_HI20", 27: "R_RISCV_LO12_I", 19: "R_RISCV_CALL_PLT", 51: "R_RISCV_RELAX", 2: "R_RISCV_64"}
SECTIONS = [
    ".text PROGBITS AX 0 0 4", ".data PROGBITS WA 0 0 8", ".rela.text RELA 5 1 8", ".rela.data RELA 5 2 8",
    ".symtab SYMTAB 6 1 8", ".strtab STRTAB 0 0 1", ".shstrtab STRTAB 0 0 1",
]  # fmt: skip
SECTION = re.compile(r"^  \[ *[1-9]\d*\] (\S+) +([A-Z_]+) +0{16} [0-9a-f]+ [0-9a-f]+ [0-9a-f]+ +(.*)$")
SYMBOL = re.compile(r"^ *[1-9]\d*: ([0-9a-f]{16}) +(\d+) (\w+) +GLOBAL +DEFAULT +(\d+) (\S+)$")
POINTER = re.compile(r"^([0-9a-f]{16})  [0-9a-f]{16} R_RISCV_64 +[0-9a-f]{16} (\S+) \+ 0$")
FUNCTION = re.compile(r"^([0-9a-f]{16}) <(\S+)>:$")
INSTRUCTION = re.compile(r"^ *([0-9a-f]+):\t[0-9a-f]{8} +\t(\S+)\t([^ ]+)")
RELOCATION = re.compile(r"^\t+([0-9a-f]+): (R_RISCV_\w+)\t(\S+)$")


def printed(*command):
    """What a command of binutils prints; it may not complain."""
    done = subprocess.run(["riscv64-linux-gnu-" + command[0], *command[1:]], capture_output=True, text=True)
    assert done.returncode == 0 and not done.stderr, done.stderr
    return done.stdout.splitlines()


def found(lines, pattern):
    return [match.groups() for line in lines if (match := pattern.match(line))]


def shown(text, at):
    """An instruction as objdump prints it, with a branch's target in place of its offset."""
    name, operands = text.split()
    *front, last = operands.split(",")
    if name == "bne":
        last = "%x" % (at + int(last))
    if name in ("lui", "auipc"):
        last = hex(int(last))
    return name, ",".join((*front, last))


def symbol_names():
    return ["main", "table"] + ["f%d" % i for i in range(object_of.FUNCTIONS)]


def marked(mark):
    """A relocation's type, and its symbol and addend, as objdump prints them."""
    kind, symbol, addend = mark
    name = symbol_names()[symbol - 1] if symbol else "*ABS*"
    return KINDS[kind], name + ("+0x%x" % addend if addend else "")


def disassembly(number):
    """What objdump is to print of the code: functions, instructions and relocations, in order."""
    at, lines = 0, []
    routines = [("main", object_of.main_lines())]
    routines += [("f%d" % i, body) for i, body in enumerate(object_of.functions(number))]
    for name, body in routines:
        lines.append(("%016x" % at, name))
        for text, *marks in body:
            lines.append(("%x" % at, *shown(text, at)))
            lines += [("%x" % at, *marked(mark)) for mark in marks]
            at += 4
    return lines


def check(number, path):
    with open(path, "rb") as file:
        assert file.read() == object_of.object_of(number), "other bytes"
    about = printed("readelf", "-aW", path)
    sections = [" ".join((name, kind, *rest.split())) for name, kind, rest in found(about, SECTION)]
    assert sections == SECTIONS, sections
    _, _, routines = object_of.program(number)
    symbols = [("%016x" % start, str(size), "FUNC", "1", name) for name, start, size in routines]
    symbols.insert(1, ("%016x" % 0, str(8 * object_of.FUNCTIONS), "OBJECT", "2", "table"))
    assert found(about, SYMBOL) == symbols, "symbols"
    pointers = [("%016x" % (8 * i), "f%d" % i) for i in range(object_of.FUNCTIONS)]
    assert found(about, POINTER) == pointers, "pointers"
    code = printed("objdump", "-dr", "-M", "no-aliases,numeric", path)
    lines = []
    for line in code:
        lines += [match.groups() for form in (FUNCTION, INSTRUCTION, RELOCATION) if (match := form.match(line))]
    assert lines == disassembly(number), "code"
    print("object of %d: %d functions and %d lines of code agree" % (number, len(routines) - 1, len(lines)))


check(int(sys.argv[1]), sys.argv[2])
