"""Which entry of a lean image saves the site of its call and which is a leaf; and of each that is none, why.

An entry is where calls go: the target of a direct call, the program's entry, a target of computed calls. What it has, the image and the
graph tell; why it is no leaf, the object does.
"""

from . import units
from .elf import fields
from .texts import OPENING, Wrong

BRANCH, JAL, JALR, STORE, SYSTEM, FENCE, LABEL = 0x63, 0x6F, 0x67, 0x23, 0x73, 0x0F, 0x37
SHOWN = 4
NO_LEAN = "each call of this image saves its own site: entries save it in lean images alone"


class Entries:
    """The places of a lean image by their numbers in its map: entries, what goes where, and the classes of targets."""

    def __init__(self, named, disassembly, words):
        self.named, self.graph, self.disassembly = named, named.graph, disassembly
        self.places = named.map.places
        self.number = {place: k for k, place in enumerate(self.places)}
        self.words = dict(named.read.instructions())
        self.is_gate = set(named.map.gates).__contains__
        at = self.at
        self.going = {at(source): at(target) for source, target in self.graph.edges if self.is_gate(target)}
        self.calls = {at(source): at(target) for source, target in self.graph.calls if source != OPENING}
        self.sites = {at(site.address): site.kind for site in self.graph.sites}
        self.classes = {}
        for label, targets in self.graph.classes.items():
            for target in targets:
                self.classes.setdefault(at(target), []).append(label)
        called = {at(target) for label, targets in self.graph.classes.items() if "calls" in self.graph.sorts[label] for target in targets}
        self.all = called | {at(target) for _, target in self.graph.calls}
        self.coming = {}
        for source, target in self.going.items():
            self.coming.setdefault(target, []).append(source)
        self.leaves = {at(start): start for start, _ in self.graph.leaves}
        self.enters = {at(unit.address): unit.address for unit in units.split(words, named.map.prologue) if unit.kind == "enter"}

    def at(self, address):
        """The number of the place at an address, or None in the prologue."""
        return self.number.get(self.named.map.place(address))

    def is_in(self, k, section):
        return 0 <= k < len(self.places) and self.places[k][0] == section

    def word(self, k):
        """The word of an instruction, or None at a section's end."""
        return self.words.get(self.places[k])

    def end(self, e):
        """The number of the next entry or target behind an entry, or of its section's end."""
        k = e + 1
        while self.word(k) is not None and k not in self.classes and k not in self.all:
            k += 1
        return k

    def name(self, k):
        return self.named.read.name(self.places[k])

    def told(self, k):
        return "%s: %s" % (self.name(k), self.disassembly.text(self.places[k], self.word(k)))

    def is_return(self, k):
        word = self.word(k)
        return word is not None and fields(word) == (JALR, 0, 1)

    def is_jump(self, k):
        """Whether a direct jump, of one word or a pair, stands at a place."""
        return k in self.going and self.word(k) & 127 != BRANCH

    def writes_x1(self, k):
        opcode, rd, _ = fields(self.word(k))
        return rd == 1 and opcode not in (BRANCH, STORE, SYSTEM, FENCE) and k not in self.calls and k not in self.sites and k not in self.going

    def why(self, e):
        """Why an entry is no leaf, each reason in a line."""
        own = range(e, self.end(e))
        yield from ("it is a target of %s" % self.graph.name(label) for label in self.classes.get(e, []))
        if self.is_in(e - 1, self.places[e][0]) and not (self.is_jump(e - 1) or self.is_return(e - 1) or self.sites.get(e - 1) == "jump"):
            yield "what stands before it goes on into it: %s" % self.told(e - 1)
        for what, numbers in self.inside(own):
            if numbers:
                more = " and %d more" % (len(numbers) - SHOWN) if len(numbers) > SHOWN else ""
                yield "%s: %s%s" % (what, "; ".join(self.told(k) for k in numbers[:SHOWN]), more)
        if not (self.is_jump(own[-1]) or self.is_return(own[-1])):
            yield "its last instruction is no jump and no return: %s" % self.told(own[-1])

    def inside(self, own):
        """What an entry's instructions do that no leaf's does, and what goes there from elsewhere."""
        yield "it calls", [k for k in own if k in self.calls]
        yield "it makes a computed call", [k for k in own if self.sites.get(k) == "call"]
        yield "it makes a computed jump", [k for k in own if self.sites.get(k) == "jump"]
        yield "it has a word as labels have", [k for k in own if self.word(k) & 0xFFF == LABEL]
        yield "it writes x1", [k for k in own if self.writes_x1(k)]
        yield "it goes elsewhere", [k for k in own if k in self.going and self.going[k] not in own]
        yield "it is gone to from elsewhere", [k for to in own for k in self.coming.get(to, []) if k not in own]


def lines(named, disassembly, words):
    """How many entries there are, and a line for each, with the reasons of those that are no leaves."""
    if not (named.map.prologue.is_lean and named.graph.is_lean):
        raise Wrong(NO_LEAN)
    entries = Entries(named, disassembly, words)
    yield "%d entries: %d leaves, %d that save the site of their call" % (
        len(entries.all), sum(e in entries.leaves for e in entries.all), sum(e in entries.enters for e in entries.all))
    for e in sorted(entries.all):
        kind, address = ("leaf", entries.leaves[e]) if e in entries.leaves else ("saves", entries.enters.get(e, named.map.gates[e]))
        yield ("%08x  %-5s  %s" % (address, kind, named.place(named.map.gates[e]))) + named.at_line(address)
        found = list(entries.why(e))
        yield from ("    %s%s" % ("which is strange for a leaf: " if kind == "leaf" else "", reason) for reason in found)
        if kind == "saves" and not found:
            yield "    which is strange, since nothing keeps it from being a leaf: is this another object?"
