"""Programs and scripts that are drawn at random. Harts call and jump through pointers in data, and store over these, over each
other's return addresses and at addresses of the shadow stack. Graphs are of either version, and pairs may have a fault."""

import struct

from tests.model.program import Program
from tests.shared.instructions import EBREAK, ECALL, SD, add, addi, branch, i_form, jal, ld, r_form, s_form, slli, u_form
from tests.shared.units import CODE, first_unit

CALLED, JUMPED = 1, 2  # labels of classes; in graphs of version 1 that of jumps is that of calls too
POINTERS = 0x10000
COUNT = 24  # of pointers
FREE = range(5, 16)
REGISTER = [(0, funct3) for funct3 in range(8)] + [(32, 0), (32, 5)] + [(1, funct3) for funct3 in range(8)]
CALLS = (63, 64, 64, 64, 93, 5)
LISTED = (0, 1, 5, 62, 63, 64, 65, 93, 94, 2047)


class Drawn:
    """A program that is being drawn: some functions, each with a gate, which call, jump and return."""

    def __init__(self, rng, version, graph):
        calls = sorted(rng.sample(LISTED, rng.choice((1, 2, 3, 8, 8)))) if rng.random() < 0.4 else None
        self.rng, self.p = rng, Program(version, graph, calls)
        self.called = CALLED if graph == 2 else JUMPED
        self.names = ["f%d" % k for k in range(rng.randrange(2, 6))]
        self.inside = 0

    def built(self):
        if self.p.graph == 2:
            self.p.listed("callclass", CALLED)
            self.p.listed("jumpclass", JUMPED)
        self.main()
        for name in self.names:
            self.function(name)
        self.p.stop()
        return self.p.built("main", self.data)

    def data(self, labels):
        """Pointers: most to gates, some to other places or beside one."""
        draw = lambda: self.rng.choice(list(labels.values())) + self.rng.choice((0, 0, 0, 0, 1, 2, 3, 4, -4))
        numbers = [draw() if self.rng.random() < 0.1 else labels[self.rng.choice(self.names)] for _ in range(COUNT)]
        return struct.pack("<%dQ" % COUNT, *numbers)

    def main(self):
        """Goes by the hart's own pointer."""
        p = self.p
        p.label("main")
        p.plain(slli(5, 10, 3), u_form(0x37, 6, 0x10), add(5, 5, 6), ld(5, 5, 0))
        p.ijump(5, self.rng.choice((0, 0, 1, 2)), JUMPED)

    def function(self, name):
        p, rng = self.p, self.rng
        p.label(name)
        if p.graph == 2:
            p.target(*rng.choices(((CALLED, JUMPED), (CALLED, None), (None, JUMPED), (None, None)), (6, 2, 2, 1))[0])
        else:
            p.gate(JUMPED)
        if rng.random() < 0.5:
            p.plain(addi(0, 0, 0))
        start = len(p.units)
        p.plain(addi(2, 2, -16))
        p.store(SD, 1, 8, 2)
        labels = []
        for _ in range(rng.randrange(1, 9)):
            self.inside += 1
            labels.append("l%d" % self.inside)
            p.label(labels[-1])
            rng.choices(self.kinds(), (30, 12, 12, 10, 12, 10, 6, 6, 5, 12, 5, 1, 2))[0](labels)
        p.plain(ld(1, 2, 8), addi(2, 2, 16))
        p.returns()
        return start

    def kinds(self):
        return (self.arithmetic, self.call, self.turn_pointer, self.turn_return, self.computed_call, self.system_call, self.branch,
                self.load_slot, self.store_slot, self.store_several, self.computed_jump, self.break_off, self.load_anywhere)

    def free(self):
        return self.rng.choice(FREE)

    def pointer(self, register):
        """Loads a pointer, that of the hart or any."""
        if self.rng.random() < 0.3:
            self.p.plain(slli(register, 10, 3), u_form(0x37, 16, 0x10), add(register, register, 16), ld(register, register, 0))
        else:
            self.p.plain(u_form(0x37, register, 0x10), ld(register, register, 8 * self.rng.randrange(COUNT)))

    def arithmetic(self, labels):
        rng = self.rng
        for _ in range(rng.randrange(1, 4)):
            kind = rng.randrange(4)
            if kind == 0:
                self.p.plain(addi(self.free(), self.free(), rng.randrange(-2048, 2048)))
            elif kind == 1:
                self.p.plain(i_form(0x13, rng.choice((2, 3, 4, 6, 7)), self.free(), self.free(), rng.randrange(4096)))
            elif kind == 2:
                top, funct3 = rng.choice(REGISTER)
                self.p.plain(r_form(0x33, funct3, top, self.free(), self.free(), rng.choice((0, 1, 2, 3, *FREE))))
            else:
                top, funct3 = rng.choice(((0, 0), (0, 1), (0, 5), (32, 0), (32, 5), (1, 0), (1, 4), (1, 5), (1, 6), (1, 7)))
                self.p.plain(r_form(0x3B, funct3, top, self.free(), self.free(), self.free()))

    def call(self, labels):
        self.p.call(self.rng.choice(self.names))

    def turn_pointer(self, labels):
        """Stores one pointer, or what stands in a register, over another."""
        register = self.free()
        if self.rng.random() < 0.8:
            self.pointer(register)
        self.p.plain(u_form(0x37, 17, 0x10))
        self.p.store(self.rng.choice((SD, SD, SD, 0, 1, 2)), register, 8 * self.rng.randrange(COUNT), 17)

    def turn_return(self, labels):
        """Stores over what another hart keeps on its stack."""
        self.pointer(7)
        self.p.plain(u_form(0x37, 18, 0x100))
        for _ in range(self.rng.randrange(1, 4)):
            self.p.plain(r_form(0x33, 0, self.rng.choice((0, 32)), 19, 2, 18))
        self.p.store(SD, 7, self.rng.choice((8, 24, -8)), 19)

    def computed_call(self, labels):
        register = self.free()
        self.pointer(register)
        self.p.icall(register, self.rng.choice((0, 0, 0, 1, 3, 4)), self.called)

    def computed_jump(self, labels):
        register = self.free()
        self.pointer(register)
        self.p.plain(ld(1, 2, 8), addi(2, 2, 16))
        self.p.ijump(register, 0, JUMPED)

    def system_call(self, labels):
        rng, p = self.rng, self.p
        number = rng.choice(CALLS)
        p.plain(addi(14, 10, 0), addi(10, 0, {63: 0, 64: 1}.get(number, 9) if rng.random() < 0.9 else 7))
        p.plain(u_form(0x37, 11, 0x10 if rng.random() < 0.9 else 0x10000), addi(11, 11, rng.randrange(-4, 300)))
        p.plain(addi(12, 0, rng.randrange(5)), addi(17, 0, number))
        p.ecall()
        p.plain(addi(10, 14, 0))

    def branch(self, labels):
        """Goes to a place of the same function that is there already, or over a word."""
        rng = self.rng
        funct3, rs1, rs2 = rng.choice((0, 1, 4, 5, 6, 7)), self.free(), rng.choice((0, 10, *FREE))
        if rng.random() < 0.3:
            target = rng.choice(labels)
            rng.choice((self.p.near, self.p.branch))(funct3, rs1, rs2, target)
        else:
            self.inside += 1
            after = "l%d" % self.inside
            rng.choice((self.p.near, self.p.branch))(funct3, rs1, rs2, after)
            self.p.plain(addi(self.free(), 10, 1))
            self.p.label(after)

    def load_slot(self, labels):
        """Loads from the shadow stack."""
        self.p.plain(u_form(0x37, 20, 0x60000 + self.rng.randrange(8) * 0x10), ld(self.free(), 20, 8 * self.rng.randrange(6)))

    def store_slot(self, labels):
        """Stores at an address of the shadow stack or of code; the mask leads it to data."""
        self.p.plain(u_form(0x37, 20, self.rng.choice((0x60000, 0x60010, 0x60020, 0x60070, 0x40000, 0xFFFFF))))
        self.p.store(SD, self.free(), 8 * self.rng.randrange(-2, 6), 20)

    def store_several(self, labels):
        """Stores several times behind one mask, at any distance or over pointers: of what the program has in its registers, and of
        x3, x4, x30 and x31, which hold what units have left there."""
        rng = self.rng
        upper, imm, apart = rng.choice(((0x10, 0, 8), (0x10, 0x100, 1), (0xFFFF, 0xFFF, 1), (0x60000, 8, 1), (0xFFFFF, 0xFF8, 1)))
        members = []
        for _ in range(rng.choice((1, 2, 3, 4, 7, 14, 15, 16, 16))):
            value = rng.choice(FREE) if rng.random() < 0.7 else rng.choice((0, 1, 2, 3, 4, 30, 31, 31))
            distance = apart * rng.randrange(COUNT) if rng.random() < 0.6 else rng.choice((0, 1, 2040, 2046, 2047, rng.randrange(2048)))
            members.append((rng.choice((0, 1, 2, SD, SD)), value, distance))
        self.p.plain(u_form(0x37, 21, upper))
        self.p.stores(21, imm, members)

    def break_off(self, labels):
        self.p.plain(EBREAK)

    def load_anywhere(self, labels):
        self.p.plain(i_form(0x03, self.rng.randrange(7), self.free(), self.free(), self.rng.randrange(4096)))


def program(rng, version, graph):
    return Drawn(rng, version, graph).built()


def is_member(word):
    return word & 0xF807F == 31 << 15 | 0x23


def changed_stores(rng, words, at):
    """A store behind a mask is off another register, its distance is another or no less than 2,048, it is of another width, or it is
    none; or the word behind some stores is one more."""
    kind = rng.randrange(5)
    if kind == 0:
        words[at] ^= rng.randrange(1, 32) << 15
    elif kind == 1:
        words[at] ^= rng.choice((1 << 31, 1 << rng.choice((7, 8, 9, 10, 11, 25, 26, 27, 28, 29, 30))))
    elif kind == 2:
        words[at] ^= rng.randrange(1, 8) << 12
    elif kind == 3:
        words[at] = addi(0, 0, 0)
    else:
        while at < len(words) - 2 and is_member(words[at]):
            at += 1
        words[at] = s_form(rng.randrange(4), 31, rng.randrange(32), rng.randrange(2048))


def leads(built, words, k):
    """Whether a word is a branch or jump that may lead anywhere: a unit's first word, the second of a branch, or the last of a call."""
    begun = lambda at: CODE + 4 * at in built.starts
    jumps = words[k] & 0xFFF == 0x6F
    return (begun(k) and (jumps or words[k] & 127 == 0x63) or words[k] & 0xFFF == 0xEF
            or jumps and begun(k - 1) and words[k - 1] & 127 == 0x63)


def changed_way(rng, built, words, first):
    """A branch, jump or call leads to another word, most often to a store."""
    members = [k for k in range(first, len(words)) if is_member(words[k])]
    at = rng.choice([k for k in range(first, len(words)) if leads(built, words, k)])
    to = rng.choice(members) if members and rng.random() < 0.8 else rng.randrange(first, len(words))
    offset = 4 * (to - at)
    if words[at] & 127 != 0x63:
        words[at] = jal(words[at] >> 7 & 1, 0, offset)
    elif -4096 <= offset < 4096:
        words[at] = branch(words[at] >> 12 & 7, words[at] >> 15 & 31, words[at] >> 20 & 31, offset)


def changed_words(rng, built):
    """The words of a program with one unit's word changed: a bit is turned, or it is a gate, a word that does nothing, another word of
    the program or the load of a check by either word of its destination; or it changes places with the one after it, or it is one of
    several stores, or leads elsewhere."""
    words, first = list(built.words), (first_unit(built.version, int(built.graph.split()[1])) - CODE) // 4
    at = rng.randrange(first, len(words) - 1)
    loads = [k for k in range(first, len(words)) if words[k] in (0x000FAF03, 0x004FAF03)]
    targets = [k for k in range(first, len(words) - 1) if words[k] & 0xFFF == 0x37]
    members = [k for k in range(first, len(words) - 1) if is_member(words[k])]
    numbers = [k for k in range(first, len(words) - 3) if words[k] & 0xFFFFF == 31 << 7 | 0x13 and words[k + 1] & 0xFFF00000 == 0x01100000]
    kind = rng.randrange(12 if numbers else 10)
    if kind == 0:
        words[at] ^= 1 << rng.randrange(32)
    elif kind == 1:
        at = rng.choice(targets or [at]) + rng.choice((-1, 0, 1))
        words[at] = u_form(0x37, 0, rng.randrange(4))
    elif kind == 2:
        words[rng.choice(targets or [at])] = addi(0, 0, 0)
    elif kind == 3:
        words[at] = words[rng.randrange(first, len(words))]
    elif kind == 4:
        words[rng.choice(loads or [at])] = rng.choice((0x000FAF03, 0x004FAF03))
    elif kind == 5:
        at = rng.choice(targets or [at])
        words[at], words[at + 1] = words[at + 1], words[at]
    elif kind < 8:
        changed_stores(rng, words, rng.choice(members or [at]))
    elif kind > 9:
        changed_number(rng, words, rng.choice(numbers))
    else:
        changed_way(rng, built, words, first)
    return words


def changed_number(rng, words, at):
    """Another number in a guarded system call, or a bit of its words; its call in place of another word, or another word for it."""
    kind, call = rng.randrange(5), words.index(ECALL, at)
    if kind == 0:
        words[at] = addi(31, 0, rng.choice(LISTED + (-1, -2048)))
    elif kind == 1:
        words[rng.randrange(at, call + 1)] ^= 1 << rng.randrange(32)
    elif kind == 2:
        words[rng.randrange(at - 1, call + 2)] = ECALL
    elif kind == 3:
        words[at], words[at + 2] = words[at + 2], words[at]
    else:
        words[rng.randrange(at, call + 1)] = rng.choice((EBREAK, addi(0, 0, 0), words[at]))


def other_version(rng, lines):
    """The lines of a graph as one of the other version."""
    if lines[0].endswith("2"):
        return ["rvcfi-graph 1"] + [line.replace("callclass", "class").replace("jumpclass", "class") for line in lines[1:]]
    return ["rvcfi-graph 2"] + [rng.choice(("call", "jump")) + line if line.startswith("class") else line for line in lines[1:]]


SWAPPED = {"callclass": "jumpclass", "jumpclass": "callclass", "call": "jump", "jump": "call"}


def other_calls(rng, lines):
    """The lines of a graph with another list of system calls, or without its list."""
    before, is_listed = lines[:2], lines[2].startswith("calls")
    numbers = {int(word) for word in lines[2].split()[1:]} if is_listed else set()
    numbers ^= {rng.choice(LISTED)}
    listed = sorted(numbers)[:8]
    return before + (["calls " + " ".join(map(str, listed))] if listed and rng.random() < 0.8 else []) + lines[3 if is_listed else 2:]


def changed_graph(rng, built):
    """The text of a program's graph with one line changed: it is gone, it names the other sort or another label, a class has a target
    less or more; or the graph is of the other version, or has another list of system calls."""
    lines = built.graph.decode().split("\n")
    kind = rng.randrange(6)
    if kind == 0:
        return "\n".join(other_version(rng, lines)).encode()
    if rng.random() < (0.4 if lines[2].startswith("calls") else 0.1):
        return "\n".join(other_calls(rng, lines)).encode()
    at = rng.choice([k for k, line in enumerate(lines) if k > 1 and line not in ("", "end") and not line.startswith("calls ")])
    words = lines[at].split()
    if kind == 1:
        del lines[at]
    elif words[0] == "site":
        words[2:] = [SWAPPED[words[2]], words[3]] if kind < 4 else [words[2], "%05x" % rng.randrange(1, 4)]
        lines[at] = " ".join(words)
    elif words[0] in SWAPPED and words[0] != "call" and kind == 2:
        lines[at] = " ".join([SWAPPED[words[0]]] + words[1:])
    elif words[0].endswith("class"):
        targets = set(words[2:])
        there = CODE + 4 * rng.randrange(len(built.words))
        targets ^= {rng.choice(words[2:]) if kind == 3 and words[2:] else "%08x" % there}
        lines[at] = " ".join(words[:2] + sorted(targets))
    else:
        words[2] = "%08x" % (int(words[2], 16) + rng.choice((-4, 4)))
        lines[at] = " ".join(words)
    return "\n".join(lines).encode()


def changed(rng, built):
    """A program with a fault in its words or in its graph, or with one that is none."""
    if rng.random() < 0.5:
        return built._replace(words=changed_words(rng, built))
    return built._replace(graph=changed_graph(rng, built))


def changes(rng, built, harts, limit):
    """Lines that change pointers, return addresses and what lies beside them, their steps not falling."""
    lines, steps = [], min(limit, rng.choice((50, 150, 1000)))
    for step in sorted(rng.randrange(steps + 1) for _ in range(rng.choice((0, 1, 3, 10, 40)))):
        kind = rng.randrange(4)
        if kind < 2:
            address = POINTERS + 8 * rng.randrange(COUNT)
        else:
            address = 2**28 - rng.randrange(harts) * 2**20 - 16 * rng.randrange(1, 3) + 8
        value = rng.choice(list(built.labels.values())) + rng.choice((0, 0, 0, 2, 4))
        given = struct.pack("<Q", value)
        if kind == 3:
            address, given = rng.randrange(2**28 + 4096 - 16), rng.randbytes(rng.randrange(1, 9))
        lines.append("at %d %08x %s" % (step, address, given.hex()))
    return lines


def turns(rng, harts):
    """Turn lines: none, long ones, or many that are short."""
    most = rng.choice((1, 3, 40, 200))
    count = rng.choice((0, 3, 10, 40)) * (5 if most < 4 else 1)
    return ["turn %d %d" % (rng.randrange(harts), rng.randint(1, most)) for _ in range(count)]


def script(rng, built, limit):
    """A script's text, or None."""
    first = rng.choice((None, "rvcfi-script 1", *["rvcfi-script 2"] * 8))
    if first is None:
        return None
    lines, harts = [first], 1
    if first.endswith("2"):
        harts = rng.randint(1, 8) if built.version == 2 or rng.random() < 0.3 else 1
        lines += ["harts %d" % harts] + turns(rng, harts)
    return "\n".join(lines + changes(rng, built, harts, limit) + ["end", ""]).encode()


PIECES = (b"", b"0", b"1", b"9", b" ", b"\n", b"a", b"A", b"-", b"00", b"end", b"turn 0 1\n", b"harts 8\n", b"at 0 00010000 00\n",
          b"1000000001", b"18446744073709551616", b"\xff", b"\t")


def turned(rng, text):
    """A text with a piece in place of another, or with a line moved."""
    at = rng.randrange(len(text) + 1)
    if rng.random() < 0.7:
        return text[:at] + rng.choice(PIECES) + text[at + rng.randrange(3):]
    lines = text.split(b"\n")
    line = lines.pop(rng.randrange(len(lines)))
    lines.insert(rng.randrange(len(lines) + 1), line)
    return b"\n".join(lines)
