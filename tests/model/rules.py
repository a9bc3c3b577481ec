"""Which of the ten rules an image and a graph meet, by docs/MACHINE.md and docs/FORMATS.md alone: the graph's text is right.

The split looks at one word after another, and each rule at one address after another, as the tables of these pages have them.
"""


from tests.model.program import guarded
from tests.shared.instructions import EBREAK, ECALL, addi, branch, i_form, jal
from tests.shared.units import HANDLERS, OPENING, check, first_unit, prologue, push
from tools.simulator.machine import CODE, IMMEDIATE, REGISTER, WORD, field, signed

STOP, GATE, CALL, GUARDED = "stop", "gate", "system call", "guarded"
KEPT = (3, 4, 30, 31)  # registers that no plain instruction writes
MOST_STORES = 16  # behind one mask
MOST_NUMBERS = 8  # of system calls
MOST_WORDS = 64  # no unit has as many


def jal_target(word, at, rd):
    """Where `jal rd` at an address leads, or None."""
    if word is None or word & 0xFFF != 0x6F | rd << 7:
        return None
    offset = field(word, 31, 1, 20) | field(word, 12, 8, 12) | field(word, 20, 1, 11) | field(word, 21, 10, 1)
    return at + signed(offset, 21)


def branch_offset(word):
    """The offset of a branch, or None."""
    if word & 127 != 0x63 or word >> 12 & 7 in (2, 3):
        return None
    return signed(field(word, 31, 1, 12) | field(word, 7, 1, 11) | field(word, 25, 6, 5) | field(word, 8, 4, 1), 13)


def is_plain(word):
    opcode, rd, funct3, top = word & 127, word >> 7 & 31, word >> 12 & 7, word >> 25
    if opcode == 0x0F:
        return funct3 == 0
    if rd in KEPT:
        return False
    return ((opcode == 0x37 and rd != 0) or opcode == 0x17 or (opcode == 0x03 and funct3 != 7)
            or (opcode == 0x13 and (funct3 in IMMEDIATE or (funct3, word >> 26) in ((1, 0), (5, 0), (5, 16))))
            or (opcode == 0x1B and (funct3 == 0 or (top, funct3) in ((0, 1), (0, 5), (32, 5))))
            or (opcode == 0x33 and (top, funct3) in REGISTER) or (opcode == 0x3B and (top, funct3) in WORD))


def computed(words, at):
    """A computed transfer, by its kind, the label that it asks for and how far behind its destination its check reads."""
    if len(words) < 13 or words[8] & 0xFFF != 0x37 | 4 << 7:
        return None
    rs1, imm, label = words[0] >> 15 & 31, words[0] >> 20, words[8] >> 12
    for past, kind, rest in (0, "jump", []), (4, "jump", []), (0, "call", push(at + 48)):
        whole = check(at, rs1, imm, label, past) + rest + [i_form(0x67, 0, 1 if rest else 0, 31, 0)]
        if words[:len(whole)] == whole:
            return kind, (label, past), len(whole)
    return None


def member(word):
    """Whether a word is a store off x31 whose distance is no less than 0."""
    funct3, distance = word >> 12 & 7, word >> 25 << 5 | word >> 7 & 31
    return word & 127 == 0x23 and funct3 < 4 and word >> 15 & 31 == 31 and distance < 2048


def masked(words, mask):
    """How many words a mask and the stores that follow it have, or None."""
    if words[:len(mask)] != mask:
        return None
    count = next((k for k, word in enumerate(words[len(mask):]) if not member(word)), len(words) - len(mask))
    return len(mask) + min(count, MOST_STORES) if count else None


def stores(words):
    """How many words a unit of stores has, or None."""
    return masked(words, [addi(31, words[0] >> 15 & 31, words[0] >> 20), i_form(0x13, 1, 31, 31, 36), i_form(0x13, 5, 31, 31, 36)])


def numbers(words, at):
    """The numbers of a guarded system call, or None."""
    for count in range(1, MOST_NUMBERS + 1):
        found = [word >> 20 for word in words[:2 * count:2]]
        if len(words) >= 2 * count + 2 and max(found) < 2048 and words[:2 * count + 2] == guarded(at, found):
            return found
    return None


def common(words, at):
    """The unit that begins at an address, of those that graphs of each version have: its kind, what it asks for or where it leads, and
    how many words it has; or None."""
    first = words[0]
    if first & 0xFFF == 0x37:
        return GATE, first >> 12, 1
    if is_plain(first):
        return "plain", None, 1
    if first in (ECALL, EBREAK):
        return CALL if first == ECALL else "break", None, 1
    to = jal_target(first, at, 0)
    if to is not None:
        return (STOP, None, 1) if to == CODE else ("edge", to, 1)
    offset = branch_offset(first)
    if offset is not None:
        to = jal_target(words[1] if len(words) > 1 else None, at + 4, 0)
        return ("edge", to, 2) if offset == 8 and to is not None else ("edge", at + offset, 1)
    returns = [i_form(0x03, 3, 31, 3, -8), addi(3, 3, -8), branch(0, 31, 1, 8), jal(0, at + 12, CODE + 4), i_form(0x67, 0, 0, 31, 0)]
    if words[:5] == returns:
        return "return", None, 5
    listed = numbers(words, at)
    return (GUARDED, listed, 2 * len(listed) + 2) if listed else None


def unit(words, at):
    """The unit that begins at an address under graphs of versions 1 and 2, as `common` tells it."""
    found = common(words, at)
    if found:
        return found
    to = jal_target(words[7], at + 28, 1) if len(words) > 7 else None
    if to is not None and words[:7] == push(at):
        return "direct", to, 8
    size = stores(words)
    return ("stores", None, size) if size else computed(words, at)


class Lines:
    """A graph by its lines."""

    def __init__(self, text):
        lines = [line.split() for line in text.decode().split("\n")[:-2]]
        self.version, self.code = int(lines[0][1]), int(lines[1][2], 16)
        self.classes, self.lines, self.calls, self.ranges = {}, {}, None, []
        for words in lines[2:]:
            if words[0] == "calls":
                self.calls = [int(word) for word in words[1:]]
            elif words[0] == "leaf":
                self.ranges.append((int(words[1], 16), int(words[2], 16)))
            elif words[0].endswith("class"):
                self.classes[int(words[1], 16)] = words[0], [int(word, 16) for word in words[2:]]
            else:
                self.lines[int(words[1], 16)] = words

    def allows(self, kind, listed):
        """Whether a unit calls the system as the graph's list says."""
        if kind == CALL:
            return self.calls is None
        return kind != GUARDED or listed == self.calls

    def is_line(self, at, name, to):
        """Whether the line at an address is an edge or a call to a target."""
        return self.lines.get(at) == [name, "%08x" % at, "%08x" % to]

    def serves(self, kind, label):
        """Whether a class with a label is one that sites of a kind ask for."""
        return label in self.classes and self.classes[label][0] in ("class", kind + "class")


class Pair:
    """An image's words, their version and a graph."""

    def __init__(self, version, words, text):
        self.version, self.words, self.graph = version, words, Lines(text)
        self.first, self.end = first_unit(version, self.graph.version), CODE + 4 * len(words)
        self.units, self.last, self.unfit = {}, None, None

    def words_from(self, at):
        """The words from an address on, as many as a unit may have."""
        k = (at - CODE) // 4
        return self.words[k:k + MOST_WORDS]

    def unit_at(self, at):
        """The unit that begins at an address, if this graph admits it."""
        found, read = unit(self.words_from(at), at), 4 if self.graph.version == 2 else 0
        if not found or (found[0] == "jump" and found[1][1] != read) or not self.graph.allows(*found[:2]):
            return None
        return found

    def split(self):
        """Cuts the words into units, up to the first place where none fits."""
        at = self.first
        while at < self.end:
            found = self.unit_at(at)
            if not found:
                self.unfit = at
                return
            self.units[at] = found
            self.last, at = at, at + 4 * found[2]

    def opened(self):
        """Where the opening leads."""
        at = self.first - 12
        return jal_target(self.words[(at - CODE) // 4], at, 1)

    def prologue(self):
        """The first word of the prologue that is missing or another one."""
        call, wanted = self.first - 12, prologue(self.first, self.version, self.graph.version)
        for k, word in enumerate(wanted):
            at, own = CODE + 4 * k, self.words[k] if k < len(self.words) else None
            if (jal_target(own, at, 1) is None) if at == call else own != word:
                return at
        return None

    def leads(self):
        """Each direct transfer: where it starts, the name of its line, its target."""
        for at, (kind, to, _) in self.units.items():
            if kind in ("edge", "direct"):
                yield at, "edge" if kind == "edge" else "call", to
        yield OPENING, "call", self.opened()

    def may_lead(self, at, to):
        """Whether a direct transfer may lead to an address, as rule Target asks."""
        return to in self.units

    def wrong_sites(self):
        asked = {at: (kind, to[0]) for at, (kind, to, _) in self.units.items() if kind in ("jump", "call")}
        for at, (kind, label) in asked.items():
            if self.graph.lines.get(at) != ["site", "%08x" % at, kind, "%05x" % label] or not self.graph.serves(kind, label):
                yield at
        yield from (at for at, words in self.graph.lines.items() if words[0] == "site" and at not in asked)

    def bears(self, at, label):
        return at in self.units and self.units[at][:2] == (GATE, label)

    def lacking(self):
        """Targets that are no gate of their class."""
        for label, (sort, targets) in self.graph.classes.items():
            for at in targets:
                if sort == "jumpclass" and not (at in self.units and self.bears(at + 4, label)):
                    yield at
                elif sort != "jumpclass" and not self.bears(at, label):
                    yield at

    def astray(self):
        """Gates of a class's label that no target has."""
        for at, (kind, label, _) in self.units.items():
            if kind == GATE and label in self.graph.classes:
                sort, targets = self.graph.classes[label]
                if (at - 4 if sort == "jumpclass" else at) not in targets:
                    yield at

    def failing(self):
        """The rules after Prologue and Unit in their order, each with the addresses at which it fails."""
        leads = list(self.leads())
        yield "Target", [at for at, _, to in leads if not self.may_lead(at, to)]
        yield "Unlisted", [at for at, name, to in leads if not self.graph.is_line(at, name, to)]
        started = {(at, name) for at, name, _ in leads}
        yield "Unused", [at for at, words in self.graph.lines.items() if words[0] != "site" and (at, words[0]) not in started]
        yield "Site", list(self.wrong_sites())
        yield "Gate", list(self.lacking())
        yield "Astray", list(self.astray())
        ends = self.last is not None and self.units[self.last][0] == STOP
        yield "End", [] if ends else [self.last or self.first]

    def starts(self):
        """Where something starts, if the pair is accepted."""
        self.split()
        return set(self.units) | set(HANDLERS) | {OPENING, self.first - 8}

    def verdict(self):
        """The text that `rvcfi verify` puts."""
        if 4 * len(self.words) != self.graph.code:
            return "rejected Length %d %d" % (4 * len(self.words), self.graph.code)
        at = self.prologue()
        if at is not None:
            return "rejected Prologue %08x" % at
        self.split()
        if self.unfit is not None:
            return "rejected Unit %08x" % self.unfit
        for rule, addresses in self.failing():
            if addresses:
                return "rejected %s %08x" % (rule, min(addresses))
        return "accepted"


def verdict(version, words, graph):
    return Pair(version, words, graph).verdict()


def starts(version, words, graph):
    """Where something starts in an accepted pair."""
    return Pair(version, words, graph).starts()
