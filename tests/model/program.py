"""Hardened programs by their units: docs/MACHINE.md has the units, docs/FORMATS.md the image and the graph.

A target is a label's name or an address.
"""

import struct
from typing import NamedTuple

from tests.shared.instructions import ECALL, addi, branch, i_form, jal, s_form, u_form
from tests.shared.texts import calls_line
from tests.shared.units import CODE, HANDLERS, OPENING, check, first_unit, image_file, masked, prologue, push, returning

IMAGE_VERSIONS = {1: "OneHart", 2: "EightHarts"}  # their names in tables of crates/


class Built(NamedTuple):
    """An image by its parts: its version, the words of its code, its data, its graph, where something starts, its labels."""
    version: int
    words: list
    data: bytes
    graph: bytes
    starts: set
    labels: dict

    @property
    def code(self):
        return struct.pack("<%dI" % len(self.words), *self.words)

    @property
    def image(self):
        return image_file(self.code, self.data, self.version)


def guarded(at, numbers):
    """The words of a system call behind a test of its number."""
    tests = [word for k, number in enumerate(numbers) for word in (addi(31, 0, number), branch(0, 31, 17, 8 * (len(numbers) - k)))]
    return tests + [jal(0, at + 8 * len(numbers), CODE), ECALL]


class Program:
    """Units one after another, from the first address of a version's units on. In a graph of version 1 a class serves calls and
    jumps, and a target begins with its gate; in one of version 2 it serves one of them, and a target begins with two words. Where the
    numbers of system calls are listed, each is guarded."""

    def __init__(self, version, graph=1, calls=None):
        self.version, self.graph, self.calls, self.at = version, graph, calls, first_unit(version, graph)
        self.units, self.labels, self.classes, self.ranges = [], {}, {}, []

    def put(self, size, words, line=None):
        """Adds a unit of so many words: what its words are, and its line of the graph, by its address and the labels."""
        self.units.append((self.at, words, line))
        self.at += 4 * size

    def label(self, name):
        self.labels[name] = self.at

    def address(self, target):
        return self.labels.get(target, target)

    def gate(self, label):
        self.listed("class", label).append(self.at)
        self.plain(u_form(0x37, 0, label))

    def target(self, call=None, jump=None):
        """A target for graphs of version 2: its word for calls and its word for jumps, and of each its label, where it has one."""
        at = self.at
        for sort, label in ("callclass", call), ("jumpclass", jump):
            if label:
                self.listed(sort, label).append(at)
            self.plain(u_form(0x37, 0, label) if label else addi(0, 0, 0))

    def listed(self, sort, label):
        """The targets of a class of a sort."""
        return self.classes.setdefault((label, sort), [])

    def plain(self, *words):
        for word in words:
            self.put(1, lambda at, word=word: [word])

    def edge(self, target):
        return lambda at: "edge %08x %08x" % (at, self.address(target))

    def branch(self, funct3, rs1, rs2, target):
        """Goes to its target where the condition is not met."""
        self.put(2, lambda at: [branch(funct3, rs1, rs2, 8), jal(0, at + 4, self.address(target))], self.edge(target))

    def near(self, funct3, rs1, rs2, target):
        """Goes to its target where the condition is met."""
        self.put(1, lambda at: [branch(funct3, rs1, rs2, self.address(target) - at)], self.edge(target))

    def jump(self, target):
        self.put(1, lambda at: [jal(0, at, self.address(target))], self.edge(target))

    def stop(self):
        self.put(1, lambda at: [jal(0, at, CODE)])

    def store(self, funct3, rs2, imm, rs1):
        self.stores(rs1, imm, [(funct3, rs2, 0)])

    def stores(self, rs1, imm, members):
        """A mask and the stores behind it, each by its width, what it stores, and how far from the masked address."""
        self.put(3 + len(members), lambda at: masked(rs1, imm) + [s_form(funct3, 31, rs2, distance) for funct3, rs2, distance in members])

    def call(self, target):
        self.put(8, lambda at: push(at) + [jal(1, at + 28, self.address(target))],
                 lambda at: "call %08x %08x" % (at, self.address(target)))

    def ijump(self, rs1, imm, label):
        past = 4 if self.graph == 2 else 0
        self.put(13, lambda at: check(at, rs1, imm, label, past) + [i_form(0x67, 0, 0, 31, 0)],
                 lambda at: "site %08x jump %05x" % (at, label))

    def icall(self, rs1, imm, label):
        self.put(20, lambda at: check(at, rs1, imm, label) + push(at + 48) + [i_form(0x67, 0, 1, 31, 0)],
                 lambda at: "site %08x call %05x" % (at, label))

    def ecall(self):
        """A system call, by what the program's list says."""
        self.plain(ECALL) if self.calls is None else self.guarded(self.calls)

    def guarded(self, numbers):
        """A system call whose number is one of these, or the program halts."""
        self.put(2 * len(numbers) + 2, lambda at: guarded(at, numbers))

    def returns(self):
        self.put(5, returning)

    def built(self, entry, data=b""):
        """The image that is entered at a label. Where data are a function, they are what it makes of the labels."""
        words = prologue(self.address(entry), self.version, self.graph)
        lines = ["call %08x %08x" % (OPENING, self.address(entry))]
        for at, unit, line in self.units:
            words += unit(at)
            lines += [line(at)] if line else []
        heads = ["%s %05x%s" % (sort, label, "".join(" %08x" % at for at in targets))
                 for (label, sort), targets in sorted(self.classes.items())]
        calls = [calls_line(self.calls)] if self.calls is not None else []
        ranges = ["leaf %08x %08x" % each for each in self.ranges]
        text = ["rvcfi-graph %d" % self.graph, "code %08x %08x" % (CODE, 4 * len(words))] + calls + ranges + heads + lines + ["end", ""]
        starts = {at for at, _, _ in self.units} | set(HANDLERS) | {OPENING, first_unit(self.version, self.graph) - 8}
        data = data(self.labels) if callable(data) else data
        return Built(self.version, words, data, "\n".join(text).encode(), starts, dict(self.labels))
