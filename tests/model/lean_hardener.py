"""What an object becomes in the forms of graphs of version 3: leads, entries, leaves, stores behind short and long masks."""


from tests.model.forms import LEAN
from tests.model.hardener import Groups, Hardening, Layout, size_of, store_offset
from tests.model.lean_program import LeanProgram
from tests.model.lean_rules import writes_x1
from tests.model.maps import Maps, is_outside
from tools.simulator.machine import CODE, CODE_SIZE, WINDOW

SIZES = {"call": 4, "ijump": 60, "icall": 60}
CALLS = "call", "icall", "ijump"  # what no leaf has


def is_short(groups, k):
    """Whether a store that begins a group has a short mask."""
    return groups.is_own(k) and store_offset(groups.source.items[k].word) >= 0


def alone(groups, k):
    """The size of a store that begins a group."""
    return 8 if is_short(groups, k) else 12


class LeanGroups(Groups):
    """Which stores may stand behind one mask: behind a short one those alone whose offsets are not negative."""

    def may_join(self, k, group):
        return super().may_join(k, group) and (not is_short(self, group[0]) or store_offset(self.source.items[k].word) >= 0)


class Leaves:
    """The entries of a program and its leaves, by the indices of places: of a leaf its first, and the one behind its last."""

    def __init__(self, source, flow, entry):
        self.items, self.flow = source.items, flow
        to = [source.index[item.target] if item.target else None for item in self.items]
        self.entries = {entry} | {to[k] for k, item in enumerate(self.items) if item.kind == "call"} | set(flow.leads[0])
        self.jumps = [(k, to[k]) for k, item in enumerate(self.items) if item.kind in ("branch", "jump")]
        self.coming = {}
        for k, target in self.jumps:
            self.coming.setdefault(target, []).append(k)
        self.going = dict(self.jumps)
        ends = {e: self.end(e) for e in sorted(self.entries) if not flow.is_target(e)}
        self.first = {e: f for e, f in ends.items() if self.is_leaf(e, f)}
        self.inside = {k for e, f in self.first.items() for k in range(e, f)}

    def end(self, e):
        """The next entry or target behind an entry in its section, or the section's end."""
        k = e + 1
        while self.items[k].kind != "stop" and k not in self.entries and not self.flow.is_target(k):
            k += 1
        return k

    def may_stand(self, k):
        """Whether an instruction may stand in a leaf."""
        item = self.items[k]
        if item.kind in CALLS:
            return False
        return item.kind != "plain" or not (item.word & 0xFFF == 0x37 or writes_x1(item.word))

    def is_leaf(self, e, f):
        before = self.items[e - 1] if e and self.items[e - 1].place[0] == self.items[e].place[0] else None
        own, inside = range(e, f), range(e, f)
        return ((before is None or before.kind in ("jump", "return", "ijump")) and all(map(self.may_stand, own))
                and all(self.going[k] in inside for k in own if k in self.going)
                and all(k in inside for target in own for k in self.coming.get(target, ()))
                and self.items[f - 1].kind in ("jump", "return"))

    def enters(self, k):
        """Whether an enter stands before a place."""
        return k in self.entries and k not in self.first

    def lead(self, k):
        """How many bytes stand before a place's unit: a gate or nothing, a jump over the rest, a gate, an enter."""
        return 4 * self.flow.is_target(k) + 24 * self.enters(k) + 4 * (k in self.flow.leads[0])

    def size(self, k):
        """The size of a unit that has one alone."""
        item = self.items[k]
        if item.kind == "return" and k in self.inside:
            return 4
        return SIZES.get(item.kind) or size_of(item, self.flow.calls)


class LeanLayout(Layout):
    """The gates and the words of places."""

    GROUPS = LeanGroups

    def __init__(self, source, flow, first, entry):
        self.leaves, self.stores = Leaves(source, flow, entry), LeanGroups(source, flow, entry)
        super().__init__(source, flow, first, entry)

    def lead(self, k):
        return self.leaves.lead(k)

    def size(self, k, kind):
        if kind == "store" and k in self.group:
            return alone(self.stores, k)
        return super().size(k, kind) if kind in ("store", "branch") else self.leaves.size(k)

    def most(self):
        """How many bytes of code there are where each branch is long and each store has a mask of its own."""
        most = {"branch": lambda k: 8, "store": lambda k: alone(self.stores, k)}
        return self.first - CODE + sum(self.lead(k) + most.get(item.kind, self.leaves.size)(k) for k, item in enumerate(self.source.items))


class LeanMaps(Maps):
    """The placements of a program, by the sizes of its units and the leads before them."""

    def __init__(self, source, flow, entry):
        super().__init__(source, flow, entry)
        self.groups, leaves = LeanGroups(source, flow, entry), Leaves(source, flow, entry)
        self.lead, self.other_size = leaves.lead, leaves.size

    def alone(self, k):
        return alone(self.groups, k)


def is_outside_of_lean(source, k, registers):
    """Whether a store goes outside of the window, or a short mask may change where it goes."""
    word = source.items[k].word
    is_based = word & 127 == 0x23 and source.items[k].place not in source.at and store_offset(word) >= 0
    return is_outside(source, k, registers) or is_based and registers[word >> 15 & 31] >= WINDOW


class LeanHardening(Hardening):
    """What an object, or several as one, becomes."""

    FORMS, LAYOUT = LEAN, LeanLayout

    def new_program(self):
        return LeanProgram(self.form.image, self.flow.calls)

    def called(self, k):
        """The enter of a place, or a leaf's first unit."""
        return self.layout.words[k] - (20 if self.layout.leaves.enters(k) else 0)

    def write_units(self):
        layout = self.layout
        for e, f in sorted(layout.leaves.first.items()):
            last = f - 1
            self.program.ranges.append((layout.words[e], layout.words[last] + layout.leaves.size(last)))
        super().write_units()

    def write_lead(self, k):
        call, jump = (lead.get(k) for lead in self.flow.leads)
        if self.layout.leaves.enters(k):
            self.program.function("place %d" % k, call, jump)
        elif jump:
            self.program.landing("place %d" % k, jump)

    def write_unit(self, k, item, word):
        if item.kind == "return" and k in self.layout.leaves.inside:
            self.program.leaf_returns()
        else:
            super().write_unit(k, item, word)

    def write_stores(self, k, rs1):
        group = self.layout.group.get(k, [])
        if not group or not is_short(self.layout.stores, k):
            return super().write_stores(k, rs1)
        words = [self.source.items[j].word for j in group]
        return self.program.stores(rs1, None, [(word >> 12 & 7, word >> 20 & 31, store_offset(word)) for word in words])

    def told(self):
        if self.layout.most() > CODE_SIZE:
            return b"refused 19 CodeTooLarge %d\n" % self.layout.most()
        return super().told()
