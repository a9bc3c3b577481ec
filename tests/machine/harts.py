#!/usr/bin/env python3
"""Prints the programs and tables of crates/test_machine/src/machine.rt: `python3 tests/machine/harts.py [--check]`.

A small model of its own: harts that take turns, one step each, over one memory, one input and one output.
"""

import random
import sys
from pathlib import Path

sys.dont_write_bytecode = True
sys.path.insert(0, str(Path(__file__).resolve().parents[2]))

from tests.shared import tables
from tests.shared.instructions import ECALL, add, addi, i_form, jump, ld, lui, sd, slli

CODE, DATA, START = 0x40000000, 0x10000, 0x4000000C
MASK = (1 << 64) - 1


# Each hart adds its number and one to a sum that all share, and keeps in x9 and in a double-word of its own how often.
SHARE = [
    lui(5, 0x10), slli(6, 10, 3), add(6, 6, 5), addi(7, 10, 1),
    ld(8, 5, 64), add(8, 8, 7), sd(8, 5, 64), addi(9, 9, 1), sd(9, 6, 0), jump(0, -20),
]

# Each hart reads a byte of the input to a place of its own, writes it, and exits with it.
TELL = [
    lui(5, 0x10), add(6, 5, 10), addi(10, 0, 0), addi(11, 6, 0), addi(12, 0, 1), addi(17, 0, 63), ECALL,
    addi(10, 0, 1), addi(17, 0, 64), ECALL, i_form(0x03, 4, 10, 6, 0), addi(17, 0, 93), ECALL,
]


class Hart:
    def __init__(self, number):
        self.pc, self.regs = START, [0] * 32
        self.regs[10] = number


class Model:
    def __init__(self, words, harts, given=b""):
        self.words, self.harts = words, [Hart(h) for h in range(harts)]
        self.memory, self.given, self.output, self.events, self.status = {}, given, b"", "", None

    def read(self, addr, n):
        return sum(self.memory.get(addr + k, 0) << 8 * k for k in range(n))

    def call(self, regs, hart):
        number, addr, count = regs[17], regs[11], regs[12]
        self.events += f"{ {63: 'r', 64: 'w', 93: 'x'}[number]}{hart}"
        if number == 93:
            self.status = regs[10] & 0xFF
            return False
        if number == 64:
            self.output += bytes(self.memory.get(addr + k, 0) for k in range(count))
            regs[10] = count
        else:
            taken, self.given = self.given[:count], self.given[count:]
            self.memory.update((addr + k, byte) for k, byte in enumerate(taken))
            regs[10] = len(taken)
        return True

    def step(self, number):
        if self.status is not None:
            return
        hart = self.harts[number]
        word, regs, after = self.words[(hart.pc - START) // 4], hart.regs, hart.pc + 4
        rd, rs1, rs2 = word >> 7 & 31, word >> 15 & 31, word >> 20 & 31
        imm = (word >> 20) - (1 << 12 if word >> 31 else 0)
        kind = word & 0x707F
        if word & 0x7F == 0x37:
            regs[rd] = word >> 12 << 12
        elif word & 0x7F == 0x6F:
            after = hart.pc - 20  # the one jump of the programs
        elif kind == 0x13:
            regs[rd] = regs[rs1] + imm & MASK
        elif kind == 0x1013:
            regs[rd] = regs[rs1] << rs2 & MASK
        elif kind == 0x33:
            regs[rd] = regs[rs1] + regs[rs2] & MASK
        elif kind == 0x3003:
            regs[rd] = self.read(regs[rs1] + imm, 8)
        elif kind == 0x4003:
            regs[rd] = self.read(regs[rs1] + imm, 1)
        elif kind == 0x3023:
            addr = regs[rs1] + (word >> 25 << 5 | rd)
            self.memory.update((addr + k, regs[rs2] >> 8 * k & 0xFF) for k in range(8))
        elif word == ECALL:
            if not self.call(regs, number):
                return
        else:
            raise ValueError(f"{word:08x}")
        regs[0] = 0
        hart.pc = after


def text(turns):
    return "".join(map(str, turns))


def share_rows():
    draw = random.Random(14)
    plans = [("alone", 1, [0] * 40), ("in-turn", 2, [0, 1] * 30), ("one-first", 2, [0] * 17 + [1] * 23 + [0] * 9),
             ("second-alone", 2, [1] * 22), ("in-turn", 8, list(range(8)) * 12), ("last-alone", 8, [7] * 31),
             ("falling", 8, list(range(7, -1, -1)) * 11)]
    plans += [("drawn", harts, [draw.randrange(harts) for _ in range(90)]) for harts in (2, 3, 5, 8, 8)]
    for name, harts, turns in plans:
        model = Model(SHARE, harts)
        for turn in turns:
            model.step(turn)
        ends = " ".join(f"{h.pc:x} {h.regs[8]:x} {h.regs[9]:x}" for h in model.harts)
        yield f"{name} {harts:x} {text(turns)} {model.read(DATA + 64, 8):x} {ends}"


def tell_rows():
    """NAME HARTS TURNS; a change, its address and byte; more turns; the output, first byte highest, its length, the calls
    (read, write, exit, each with its hart), and the status of an exit."""
    draw = random.Random(15)
    never = (200, 0, 0)
    plans = [("alone", 1, [0] * 13, never), ("going-on", 1, [0] * 12, never), ("second-first", 2, [1] * 10 + [0] * 13, never),
             ("between", 2, [0] * 7 + [1] * 10 + [0] * 3, never), ("other-stops", 2, [0] * 10 + [1] * 13 + [0] * 5, never),
             ("in-turn", 2, [0, 1] * 13, never), ("in-turn", 8, list(range(8)) * 13, never),
             ("falling", 8, list(range(7, -1, -1)) * 13, never), ("changed", 2, [0] * 7 + [1] * 13, (7, DATA + 1, 0x21)),
             ("changed-after", 2, [0] * 7 + [1] * 13, (17, DATA + 1, 0x21)), ("changed-between", 2, [0] * 7 + [1] * 13, (14, DATA + 1, 0x21)), ("changed-before", 2, [0] * 7 + [1] * 13, (13, DATA + 1, 0x21)),
             ("no-input-left", 8, [h for h in range(7, -1, -1) for _ in range(10)] + [5] * 3, (80, DATA + 5, 0x7A))]
    plans += [("drawn", harts, [draw.randrange(harts) for _ in range(13 * harts)], never) for harts in (2, 3, 8)]
    for name, harts, turns, (at, addr, byte) in plans:
        model = Model(TELL, harts, b"ABCDEF")
        for k, turn in enumerate(turns):
            if k == at:
                model.memory[addr] = byte
            model.step(turn)
        first, rest = text(turns[:at]), text(turns[at:]) or "-"
        told = "-" if model.status is None else f"{model.status:x}"
        output = int.from_bytes(model.output, "big")
        yield f"{name} {harts:x} {first} {addr:x} {byte:x} {rest} {output:x} {len(model.output):x} {model.events} {told}"


TABLES = {name: ("test_machine/src/machine.rt", make) for name, make in {
    "SHARE": lambda: tables.words("static SHARE", SHARE), "TELL": lambda: tables.words("static TELL", TELL),
    "SHARED": lambda: tables.text("const SHARED", share_rows()), "TOLD": lambda: tables.text("const TOLD", tell_rows())}.items()}


if __name__ == "__main__":
    sys.exit(tables.main(__doc__, TABLES))
