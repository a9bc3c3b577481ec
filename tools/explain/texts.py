"""Graphs, maps, policies, images and reports, read as docs/FORMATS.md has them, without asking whether they are right."""

import bisect
import struct
from typing import NamedTuple

HANDLERS = {0x40000000: "__cfi_bad_target", 0x40000004: "__cfi_bad_return", 0x40000008: "__cfi_deep"}
CODE, OPENING = 0x40000000, 0x4000000C


class Wrong(Exception):
    """A file or a text that is not what it should be."""


class Prologue(NamedTuple):
    """How many words the opening has, and where the closing and the first unit stand; the image's version, and whether it is lean."""
    opening: int
    closing: int
    units: int
    version: int = 1
    is_lean: bool = False


ONE, SEVERAL = Prologue(11, 0x40000038, 0x40000040), Prologue(15, 0x40000048, 0x40000050, 2)
LEAN_ONE, LEAN_SEVERAL = Prologue(6, 0x40000024, 0x4000002C, 1, True), Prologue(10, 0x40000034, 0x4000003C, 2, True)
PROLOGUES = {"rvcfi-map 1": ONE, "rvcfi-map 2 harts": SEVERAL, "rvcfi-map 2 split": ONE, "rvcfi-map 2 harts-split": SEVERAL,
             "rvcfi-map 2 lean": LEAN_ONE, "rvcfi-map 2 harts-lean": LEAN_SEVERAL}
GRAPHS = "rvcfi-graph 1", "rvcfi-graph 2", "rvcfi-graph 3"
SORTS = {"class": "", "callclass": " of calls", "jumpclass": " of jumps"}


def words_of(path, *heads):
    """A file's first line, and the words of each line between that and `end`."""
    with open(path, encoding="utf-8", errors="surrogateescape") as file:
        lines = file.read().split("\n")
    if lines[0] not in heads:
        raise Wrong("%s is no file that begins with '%s'" % (path, "' or '".join(heads)))
    return lines[0], [line.split(" ") for line in lines[1:lines.index("end") if "end" in lines else None] if line]


class Site(NamedTuple):
    address: int
    kind: str
    label: str


class Graph:
    """Classes by their label, with the sort of each, the sites, the edges and calls as pairs of addresses, and the numbers of system
    calls, or None. From version 2 on calls and jumps have classes of their own. Version 3 has the ranges of leaves."""

    def __init__(self, path):
        self.classes, self.sorts, self.sites, self.edges, self.calls, self.leaves = {}, {}, [], [], [], []
        head, lines = words_of(path, *GRAPHS)
        self.is_split, self.is_lean, self.numbers = head != GRAPHS[0], head == GRAPHS[2], None
        for first, *rest in lines:
            if first in SORTS:
                self.classes[rest[0]] = [int(word, 16) for word in rest[1:]]
                self.sorts[rest[0]] = SORTS[first]
            elif first == "calls":
                self.numbers = [int(word) for word in rest]
            elif first == "site":
                self.sites.append(Site(int(rest[0], 16), rest[1], rest[2]))
            elif first in ("edge", "call", "leaf"):
                ranges = {"edge": self.edges, "call": self.calls, "leaf": self.leaves}
                ranges[first].append((int(rest[0], 16), int(rest[1], 16)))

    def site(self, address):
        return next((site for site in self.sites if site.address == address), None)

    def sites_of(self, label):
        return [site for site in self.sites if site.label == label]

    def name(self, label):
        """A class by its label, and from version 2 on by what it serves."""
        return "class %s%s" % (label, self.sorts.get(label, ""))


class Map:
    """The places of an object by the addresses that `rewrite` or `harden` gave them, and what stands before them."""

    def __init__(self, path):
        first, lines = words_of(path, *PROLOGUES)
        self.prologue = PROLOGUES[first]
        rows = [[int(word, 16) for word in line[1:]] for line in lines]
        self.gates = [row[0] for row in rows]
        self.places = [(row[1], row[2]) for row in rows]

    def place(self, address):
        """The place whose gate or unit stands at an address, or None in the prologue."""
        last = bisect.bisect_right(self.gates, address) - 1
        return self.places[last] if last >= 0 else None

    def is_end(self, place):
        """Whether a place is a section's end, whose unit is a stop."""
        at = self.places.index(place)
        return at + 1 == len(self.places) or self.places[at + 1][0] != place[0]

    def gate(self, place):
        return self.gates[self.places.index(place)] if place in self.places else None


def policy_lines(path):
    """The lines of a policy, each with its number and its words."""
    with open(path, encoding="utf-8", errors="surrogateescape") as file:
        return [(number, line.split(" ")) for number, line in enumerate(file.read().split("\n"), 1) if line]


def place_words(text):
    """The name and the offset of a place of a policy, or None where it is none."""
    name, plus, digits = text.rpartition("+")
    right = name and plus and 0 < len(digits) <= 8 and all(digit in "0123456789abcdefABCDEF" for digit in digits)
    return (name, int(digits, 16)) if right and (digits == "0" or digits[0] != "0") else None


def code_length(content, path):
    """How many bytes of code an image has."""
    if len(content) < 232 or content[:4] != b"\x7fELF":
        raise Wrong("%s is no image" % path)
    return struct.unpack_from("<Q", content, 152)[0]


def image_code(path):
    """The code of an image, as words."""
    with open(path, "rb") as file:
        content = file.read()
    code = content[0x1000:0x1000 + code_length(content, path)]
    return struct.unpack("<%dI" % (len(code) // 4), code[:len(code) // 4 * 4])


def first_line(answer):
    return answer.split(b"\n", 1)[0].decode("utf-8", "surrogateescape")


def report_of(text):
    """The output of a run, and the words of each line behind it."""
    first, _, rest = text.partition(b"\n")
    length = int(first.split()[1])
    lines = [line.split() for line in rest[length + 1:].decode("ascii", "replace").splitlines()]
    return rest[:length], [line for line in lines if line]
