#!/usr/bin/env python3
"""Makes hostile images of an accepted one: python3 hostile.py PROGRAM.img PROGRAM.graph FOLDER

FOLDER is made, and gets thirteen pairs of an image and a graph, each the accepted pair with a few words of code or lines of the
graph changed as someone would who wants more than the pair allows. The pair is one that `rvcfi harden plain` made under a list of
system calls, with stores, returns and a class. docs/TUTORIAL.md says what becomes of each. Nothing of this is trusted: `rvcfi verify`
says of each pair whether it is safe.
"""
import struct
import sys
from pathlib import Path

CODE_AT, CODE, UNITS, CLOSING = 0x1000, 0x40000000, 0x40000040, 0x40000038
CODE_FLAGS, CODE_IN_FILE = 124, 152  # where the header tells who may touch code, and its length
ECALL, NOTHING, PLAIN_RETURN = 0x00000073, 0x00000013, 0x00008067
SHIFTS = 0x024F9F93, 0x024FDF93  # slli x31,x31,36; srli x31,x31,36
READS, WRITES = 63, 64
EXECUTES = 221  # the system call by which a program becomes another one


def addi(rd, rs1, number):
    return (number & 0xFFF) << 20 | rs1 << 15 | rd << 7 | 0x13


def load(rd, rs1, number):
    return (number & 0xFFF) << 20 | rs1 << 15 | 3 << 12 | rd << 7 | 0x03


def branch_to(at, target):
    """`beq x0,x0` to a target that is near."""
    offset = target - at
    return (offset >> 12 & 1) << 31 | (offset >> 5 & 63) << 25 | (offset >> 1 & 15) << 8 | (offset >> 11 & 1) << 7 | 0x63


class Pair:
    """An image's words of code, by their addresses, its other bytes, and the lines of a graph."""

    def __init__(self, image, graph):
        self.image, self.lines = bytearray(image), graph.split("\n")
        self.length, = struct.unpack_from("<Q", image, CODE_IN_FILE)

    def word(self, at):
        return struct.unpack_from("<I", self.image, CODE_AT + at - CODE)[0]

    def put(self, at, word):
        struct.pack_into("<I", self.image, CODE_AT + at - CODE, word)

    def addresses(self):
        return range(UNITS, CODE + self.length, 4)

    def first(self, *words):
        """The first address from the units on where these words stand one after another; None is any word."""
        return next(at for at in self.addresses() if all(
            at + 4 * k < CODE + self.length and word in (None, self.word(at + 4 * k)) for k, word in enumerate(words)))

    def numbers(self):
        return [int(word) for word in self.lines[2].split()[1:]]

    def guard(self, number=None):
        """The first guarded system call, or the first behind a load of this number into x17."""
        first, second = addi(31, 0, self.numbers()[0]), None
        return self.first(first, second) if number is None else self.first(addi(17, 0, number), first) + 4

    def last_word(self, guard):
        return guard + 8 * len(self.numbers()) + 4

    def constant(self, number, register, value):
        """The last place before a system call where a register gets a constant."""
        at = self.guard(number)
        while self.word(at) != addi(register, 0, value):
            at -= 4
        return at

    def line(self, line):
        """Adds a line of the graph behind those of lesser addresses."""
        at = int(line.split()[1], 16)
        before = [k for k, text in enumerate(self.lines) if text.split(" ")[0] in ("site", "edge", "call") and int(text.split()[1], 16) < at]
        self.lines.insert(max(before) + 1, line)


def bare_call(pair):
    """The jump to the handler, behind the last test, becomes a system call."""
    pair.put(pair.last_word(pair.guard()) - 4, ECALL)


def other_number(pair):
    """The first test lets another number through."""
    pair.put(pair.guard(), addi(31, 0, EXECUTES))


def longer_list(pair):
    """The graph lists a number more, and its tests are as they were."""
    pair.lines[2] += " %d" % EXECUTES


def no_list(pair):
    """The graph has no list."""
    del pair.lines[2]


def into_call(pair):
    """A branch leads behind the tests, to the system call itself, and the graph says so."""
    at = pair.constant(WRITES, 10, 1)
    target = pair.last_word(pair.guard(WRITES))
    pair.put(at, branch_to(at, target))
    pair.line("edge %08x %08x" % (at, target))


def bare_store(pair):
    """A store's mask lets every address through."""
    at = pair.first(*SHIFTS)
    pair.put(at, NOTHING)
    pair.put(at + 4, NOTHING)


def bare_return(pair):
    """A return goes where x1 points to, without a look at the shadow stack."""
    at = pair.first(0xFF81BF83)
    pair.put(at, PLAIN_RETURN)
    for k in range(1, 5):
        pair.put(at + 4 * k, NOTHING)


def wide_class(pair):
    """The graph says that a class has one more target: the function that the opening calls."""
    entry = next(line for line in pair.lines if line.startswith("call 4000000c ")).split()[2]
    at = next(k for k, line in enumerate(pair.lines) if line.startswith("class "))
    words = pair.lines[at].split()
    pair.lines[at] = " ".join(words[:2] + sorted(set(words[2:]) | {entry}))


def own_closing(pair):
    """The system call that ends every program, and which no list guards, gets another number."""
    pair.put(CLOSING, addi(17, 0, EXECUTES))


def writable_code(pair):
    """The header says that code may be written."""
    struct.pack_into("<I", pair.image, CODE_FLAGS, 7)


def asks_for_more(pair):
    """The program asks for a system call that is not in its list."""
    pair.put(pair.guard(WRITES) - 4, addi(17, 0, EXECUTES))


def never_ends(pair):
    """A branch to itself."""
    at = pair.constant(WRITES, 10, 1)
    pair.put(at, branch_to(at, at))
    pair.line("edge %08x %08x" % (at, at))


def loads_elsewhere(pair):
    """A load from an address that is nobody's."""
    at = pair.constant(READS, 10, 0)
    pair.put(at, load(10, 0, -8))


TRIES = [bare_call, other_number, longer_list, no_list, into_call, bare_store, bare_return, wide_class, own_closing, writable_code,
         asks_for_more, never_ends, loads_elsewhere]


def main(image, graph, folder):
    content, text = Path(image).read_bytes(), Path(graph).read_text()
    Path(folder).mkdir()
    for number, change in enumerate(TRIES, 1):
        pair = Pair(content, text)
        change(pair)
        path = Path(folder) / ("%02d_%s" % (number, change.__name__))
        path.with_suffix(".img").write_bytes(pair.image)
        path.with_suffix(".graph").write_text("\n".join(pair.lines))


if __name__ == "__main__":
    if len(sys.argv) != 4:
        sys.exit(__doc__)
    main(*sys.argv[1:])
