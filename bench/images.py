"""Images of units of every kind, and the graphs that list them, for rvcfi verify to accept.

docs/MACHINE.md has the units, docs/FORMATS.md the two files. Everything is drawn from a seed, so a size has one pair, and one in which
a mask has several stores behind it.
"""

import random
import struct

from tests.shared.instructions import EBREAK, ECALL, branch, i_form, jal, r_form, s_form, u_form
from tests.shared.units import CODE, OPENING, UNITS, check, image_file, masked, prologue, push, returning

# How many words each kind of unit has, and how often it is drawn, of 100. The last unit is a stop.
SIZE = {"gate": 1, "plain": 1, "branch": 2, "jump": 1, "stop": 1, "system": 1, "store": 4, "call": 8,
        "ijump": 13, "icall": 20, "return": 5}
WEIGHT = {"gate": 4, "plain": 60, "branch": 9, "jump": 4, "stop": 1, "system": 1, "store": 10, "call": 5,
          "ijump": 1, "icall": 2, "return": 3}
STORES = (1, 2, 2, 3, 4, 5, 8, 16)  # behind one mask, where there are several; each as often
TARGETS_PER_CLASS = 16
FREE = [register for register in range(32) if register not in (3, 4, 30, 31)]


def plain(rng):
    """One instruction that is no transfer, store or system call, and writes no reserved register."""
    rd, rs1, rs2, imm = rng.choice(FREE), rng.randrange(32), rng.randrange(32), rng.randrange(4096)
    kind = rng.randrange(8)
    if kind == 0:
        return u_form(rng.choice((0x37, 0x17)), rd or 1, rng.randrange(1 << 20))
    if kind == 1:
        return i_form(0x03, rng.randrange(7), rd, rs1, imm)
    if kind == 2:
        return i_form(0x13, rng.choice((0, 2, 3, 4, 6, 7)), rd, rs1, imm)
    if kind == 3:
        funct3, top = rng.choice(((1, 0), (5, 0), (5, 0x400)))
        return i_form(0x13, funct3, rd, rs1, top | rng.randrange(64))
    if kind == 4:
        return i_form(0x1B, 0, rd, rs1, imm)
    if kind == 5:
        funct3, funct7 = rng.choice([(f, 0) for f in range(8)] + [(0, 0x20), (5, 0x20)])
        return r_form(0x33, funct3, funct7, rd, rs1, rs2)
    if kind == 6:
        funct3, funct7 = rng.choice([(0, 0), (1, 0), (5, 0), (0, 0x20), (5, 0x20)])
        return r_form(0x3B, funct3, funct7, rd, rs1, rs2)
    return i_form(0x0F, 0, 0, 0, 0x0FF)


def layout(rng, words, grouped=False):
    """The kinds of the units that fill so many words, with their addresses."""
    kinds, weights = list(WEIGHT), list(WEIGHT.values())
    units, left, at = [], words - 1, UNITS[1]
    for kind in kinds:  # one of each, whatever is drawn
        units.append((kind, at))
        at, left = at + 4 * SIZE[kind], left - SIZE[kind]
    while left > 0:
        kind = rng.choices(kinds, weights)[0]
        size = 3 + rng.choice(STORES) if grouped and kind == "store" else SIZE[kind]
        if size > left:
            kind, size = "plain", 1
        units.append((kind, at))
        at, left = at + 4 * size, left - size
    units.append(("stop", at))
    return units


def unit_words(rng, kind, at, size, label, target):
    source, imm = rng.choice(FREE), rng.randrange(4096)
    if kind == "gate":
        return [u_form(0x37, 0, label)]
    if kind == "plain":
        return [plain(rng)]
    if kind == "branch":
        return [branch(rng.choice((0, 1, 4, 5, 6, 7)), rng.randrange(32), rng.randrange(32), 8), jal(0, at + 4, target)]
    if kind == "jump":
        return [jal(0, at, target)]
    if kind == "stop":
        return [jal(0, at, CODE)]
    if kind == "system":
        return [rng.choice((ECALL, EBREAK))]
    if kind == "store":
        first = s_form(rng.randrange(4), 31, rng.choice(FREE), 0)
        return masked(source, imm) + [first] + [s_form(rng.randrange(4), 31, rng.choice(FREE), rng.randrange(2048)) for _ in range(size - 4)]
    if kind == "call":
        return push(at) + [jal(1, at + 28, target)]
    if kind == "ijump":
        return check(at, source, imm, label) + [i_form(0x67, 0, 0, 31, 0)]
    if kind == "icall":
        return check(at, source, imm, label) + push(at + 48) + [i_form(0x67, 0, 1, 31, 0)]
    return returning(at)


def pair(code_bytes, data_bytes=4096, seed=1, grouped=False):
    """An image with this much code, its graph, and how many units of each kind it has."""
    rng = random.Random(seed)
    units = layout(rng, (code_bytes - 64) // 4, grouped)
    gates = [at for kind, at in units if kind == "gate"]
    classes = max(1, len(gates) // TARGETS_PER_CLASS)
    members, label_at = [[] for _ in range(classes)], {}
    for at in gates:
        label = rng.randrange(classes)
        members[label].append(at)
        label_at[at] = label + 1
    starts = [at for _, at in units]
    words, lines = prologue(UNITS[1]), ["call %08x %08x" % (OPENING, UNITS[1])]
    for (kind, at), after in zip(units, starts[1:] + [CODE + code_bytes]):
        label, target = label_at.get(at, rng.randrange(classes) + 1), rng.choice(starts)
        words += unit_words(rng, kind, at, (after - at) // 4, label, target)
        if kind in ("branch", "jump"):
            lines.append("edge %08x %08x" % (at, target))
        elif kind == "call":
            lines.append("call %08x %08x" % (at, target))
        elif kind in ("ijump", "icall"):
            lines.append("site %08x %s %05x" % (at, "jump" if kind == "ijump" else "call", label))
    code = struct.pack("<%dI" % len(words), *words)
    heads = ["class %05x%s" % (label + 1, "".join(" %08x" % at for at in members[label])) for label in range(classes)]
    text = ["rvcfi-graph 1", "code %08x %08x" % (CODE, len(code))] + heads + lines + ["end", ""]
    counts = {kind: sum(1 for other, _ in units if other == kind) for kind in SIZE}
    return image_file(code, rng.randbytes(data_bytes)), "\n".join(text).encode(), counts
