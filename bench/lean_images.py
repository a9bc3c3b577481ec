"""Lean images, under graphs of version 3, of units of each kind but near branches and guarded calls, for rvcfi verify to accept: functions
one behind another, of which three of ten are leaves. docs/MACHINE.md has the units, docs/FORMATS.md the two files. Everything is drawn from
a seed.
"""

import random
import struct
from collections import Counter

from bench.images import FREE, STORES, TARGETS_PER_CLASS, plain
from tests.shared.instructions import EBREAK, ECALL, addi, branch, i_form, jal, r_form, s_form, u_form
from tests.shared.units import BAD_TARGET, CODE, DEEP, OPENING, check, image_file, prologue, returning

UNITS = CODE + 44
ENTER, RETURN, COMPUTED = 5, 5, 15  # words
SIZE = {"plain": 1, "branch": 2, "jump": 1, "system": 1, "call": 1, "ijump": COMPUTED, "icall": COMPUTED, "gate": 1}
SAVED = {"plain": 60, "branch": 9, "jump": 3, "system": 1, "short": 6, "long": 4, "call": 9, "ijump": 1, "icall": 2, "gate": 3}
FRESH = {"plain": 70, "branch": 12, "jump": 2, "system": 1, "short": 9, "long": 6}


def writes_link(word):
    return word & 0x7F != 0x0F and word >> 7 & 31 == 1


def function(rng, at, is_leaf, is_gated):
    """The kinds of a function's units with their addresses and sizes in words, and where it ends."""
    units = []

    def add(kind, size):
        nonlocal at
        units.append((kind, at, size))
        at += 4 * size

    if is_gated:
        add("entry gate", 1)
    if not is_leaf:
        add("enter", ENTER)
    weights = FRESH if is_leaf else SAVED
    for kind in rng.choices(list(weights), weights.values(), k=rng.randrange(4, 60)):
        add(kind, SIZE[kind] if kind in SIZE else {"short": 1, "long": 2}[kind] + rng.choice(STORES))
    add("leaf return" if is_leaf else "return", 1 if is_leaf else RETURN)
    return units, at


def words_of(rng, kind, at, size, label, target, in_leaf):
    source, imm = rng.choice(FREE), rng.randrange(4096)
    store = lambda: s_form(rng.randrange(4), 31, rng.choice(FREE), rng.randrange(2048))
    again = [u_form(0x37, 4, 0x10000), addi(4, 4, -1)]
    if kind in ("gate", "entry gate"):
        return [u_form(0x37, 0, label)]
    if kind == "enter":
        return [i_form(0x13, 1, 30, 3, 48), branch(1, 30, 0, 8), jal(0, at + 8, DEEP), s_form(3, 3, 1, 0), addi(3, 3, 8)]
    if kind == "plain":
        word = plain(rng)
        return [addi(5, 5, 1) if in_leaf and writes_link(word) else word]
    if kind == "branch":
        return [branch(rng.choice((0, 1, 4, 5, 6, 7)), rng.randrange(32), rng.randrange(32), 8), jal(0, at + 4, target)]
    if kind == "jump":
        return [jal(0, at, target)]
    if kind == "system":
        return [rng.choice((ECALL, EBREAK))]
    if kind == "short":
        return [r_form(0x33, 7, 0, 31, source, 4)] + [store() for _ in range(size - 1)]
    if kind == "long":
        return [addi(31, source, imm), r_form(0x33, 7, 0, 31, 31, 4)] + [store() for _ in range(size - 2)]
    if kind == "call":
        return [jal(1, at, target)]
    if kind == "ijump":
        return check(at, source, imm, label) + again + [i_form(0x67, 0, 0, 31, 0)]
    if kind == "icall":
        return check(at, source, imm, label, 8) + again + [i_form(0x67, 0, 1, 31, 8)]
    if kind == "leaf return":
        return [i_form(0x67, 0, 0, 1, 0)]
    return returning(at)


def lean_pair(code_bytes, data_bytes=4096, seed=1):
    """An image with at most this much code, its graph, and how many units of each kind it has."""
    rng, at, functions = random.Random(seed), UNITS, []
    while True:
        is_leaf = bool(functions) and rng.random() < 0.3
        units, end = function(rng, at, is_leaf, bool(functions) and not is_leaf and rng.random() < 0.3)
        if end + 4 > CODE + code_bytes:
            break
        functions.append((units, is_leaf, end))
        at = end
    entries = [next(a for kind, a, _ in units if kind != "entry gate") for units, _, _ in functions]
    gates = {sort: [a for units, _, _ in functions for kind, a, _ in units if kind == sort] for sort in ("gate", "entry gate")}
    classes = {sort: max(1, len(gates[sort]) // TARGETS_PER_CLASS) for sort in gates}
    first = {"entry gate": 1, "gate": 1 + classes["entry gate"]}
    label_at = {a: first[sort] + rng.randrange(classes[sort]) for sort in gates for a in gates[sort]}
    asked = {"icall": "entry gate", "ijump": "gate"}
    starts = [a for units, is_leaf, _ in functions if not is_leaf for kind, a, _ in units if kind not in ("enter", "entry gate")]
    words, lines, leaves = prologue(entries[0], 1, 3), ["call %08x %08x" % (OPENING, entries[0])], []
    for units, is_leaf, end in functions:
        if is_leaf:
            leaves.append("leaf %08x %08x" % (units[0][1], end))
        own = [a for _, a, _ in units] if is_leaf else starts
        for kind, a, size in units:
            target = rng.choice(entries if kind == "call" else own)
            sort = asked.get(kind)
            label = label_at[a] if a in label_at else first[sort] + rng.randrange(classes[sort]) if sort else 0
            words += words_of(rng, kind, a, size, label, target, is_leaf)
            if kind in ("branch", "jump"):
                lines.append("edge %08x %08x" % (a, target))
            elif kind == "call":
                lines.append("call %08x %08x" % (a, target))
            elif sort:
                lines.append("site %08x %s %05x" % (a, "jump" if kind == "ijump" else "call", label))
    words.append(jal(0, at, BAD_TARGET))
    code = struct.pack("<%dI" % len(words), *words)
    heads = []
    for sort, name, before in ("entry gate", "callclass", 8), ("gate", "jumpclass", 0):
        for label in range(first[sort], first[sort] + classes[sort]):
            heads.append("%s %05x%s" % (name, label, "".join(" %08x" % (a - before) for a in gates[sort] if label_at[a] == label)))
    text = ["rvcfi-graph 3", "code %08x %08x" % (CODE, len(code))] + leaves + heads + lines + ["end", ""]
    counts = Counter(kind for units, _, _ in functions for kind, _, _ in units)
    return image_file(code, rng.randbytes(data_bytes)), "\n".join(text).encode(), counts + Counter(stop=1)
