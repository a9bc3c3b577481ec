"""Which maps are placements of a program, by docs/FORMATS.md and docs/MACHINE.md alone, and how many steps its instructions take.

A placement is told by how many bytes stand from each place's gate to the next one's.
"""


from tests.model.hardener import Groups, size_of, store_offset
from tests.shared.instructions import ECALL
from tests.shared.units import HANDLERS, first_unit
from tools.simulator.machine import ALL, WINDOW, Machine

MOST_CALLS = 8190  # that may be pending where one more is made


class Maps:
    """The placements of a program whose classes are known, which is entered at a place."""

    def __init__(self, source, flow, entry):
        self.source, self.flow, self.groups = source, flow, Groups(source, flow, entry)

    def alone(self, k):
        """The size of a store that has a mask of its own, or the first behind one."""
        return 16

    def lead(self, k):
        """How many bytes stand before a place's unit."""
        return 4 * len(self.flow.leads) if self.flow.is_target(k) else 0

    def sizes(self, k, group):
        """The sizes that a unit may have behind the group of stores that ends right before it."""
        kind = self.source.items[k].kind
        if kind == "store":
            return {self.alone(k), 4} if self.groups.may_join(k, group) else {self.alone(k)}
        return {4, 8} if kind == "branch" else {self.other_size(k)}

    def other_size(self, k):
        """The size of a unit that has one alone."""
        return size_of(self.source.items[k], self.flow.calls)

    def wrong_line(self, first, lines):
        """The number of the first line (gate, section, offset) up to which these are those of no placement, that of `end` where some are
        missing; None where all are."""
        items, group = self.source.items, []
        for k, (gate, *place) in enumerate(lines):
            if k == len(items) or tuple(place) != items[k].place:
                return k + 2
            if k == 0 and gate != first:
                return 2
            if k:
                size = gate - lines[k - 1][0] - self.lead(k - 1)
                if size not in self.sizes(k - 1, group):
                    return k + 2
                group = [] if items[k - 1].kind != "store" else [k - 1] if size == self.alone(k - 1) else [*group, k - 1]
        return len(lines) + 2 if len(lines) < len(items) else None


def is_outside(source, k, registers):
    """Whether a store goes outside of the window."""
    word = source.items[k].word
    address = registers[word >> 15 & 31] + store_offset(word) & ALL
    return word & 127 == 0x23 and address + (1 << (word >> 12 & 3)) > WINDOW


def is_unlisted(word, registers, calls):
    """Whether a system call has a number that is not in the list."""
    return word == ECALL and calls is not None and registers[17] not in calls


def ended(hardening, is_outside=is_outside):
    """How the program ends, in the words of crates/sample_source: it runs hardened, and an instruction is begun where its word is."""
    machine, begun, depth = Machine(hardening.built.version, hardening.built.code, hardening.built.data, b"", 1), 0, 0
    words, stop, last = {at: k for k, at in enumerate(hardening.layout.words)}, None, None
    while not stop:
        pc = machine.pcs[0]
        if pc in words:
            begun, last = begun + 1, hardening.source.items[words[pc]]
            if is_outside(hardening.source, words[pc], machine.registers[0]):
                return "untame window %d %d after %d" % (*last.place, begun - 1)
            if is_unlisted(last.word, machine.registers[0], hardening.flow.calls):
                return "untame call %d %d after %d" % (*last.place, begun - 1)
            if last.kind in ("call", "icall") and depth == MOST_CALLS:
                return "untame deep %d %d after %d" % (*last.place, begun - 1)
            depth += {"call": 1, "icall": 1, "return": -1}.get(last.kind, 0)
        stop = machine.step(0)
    if stop[0] == "exit":
        at_end = machine.pcs[0] == first_unit(hardening.form.image, hardening.form.graph) - 4
        return "exit %d after %d" % (stop[1], begun + 1 if at_end else begun)
    assert HANDLERS[stop[1]] == "__cfi_bad_return"
    return "untame return %d %d after %d" % (*last.place, begun - 1)
