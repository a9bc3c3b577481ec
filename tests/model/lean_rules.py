"""Which rule a pair breaks whose graph has version 1, 2 or 3; and which line of a graph of any of these is refused, and why.

A start is fresh or saved. At a fresh one the newest pending site stands in x1 alone: an enter, a gate directly before one, each unit in a
leaf range. At a saved one it stands on the shadow stack. Rule Leaf keeps the two apart, and Target the jumps between them.
"""

import re
from bisect import bisect_right

from tests.model.file_faults import ADDRESS, CODE, Text, graph_fault
from tests.model.lean_program import LEAF_RETURN, PAST, computed, enter, long_mask, short_mask
from tests.model.rules import CALL, GATE, GUARDED, STOP, Pair, common, jal_target, masked

IN_LEAF = "plain", "stores", "edge", STOP, CALL, "break", GUARDED, "leaf return"  # the kinds of units of a leaf range
ENDING = STOP, "return", "leaf return", "jump", "break"  # the kinds that never go on to the next unit, besides jumps


class GraphText(Text):
    """The text of a graph of version 1, 2 or 3."""

    VERSIONS = "1", "2", "3"
    ended = CODE  # where the newest leaf range ends

    def readers(self, number):
        return super().readers(number) + [self.leaf] * (self.version == 3)

    def leaf(self, line):
        """The line of a leaf range."""
        found = re.fullmatch("leaf %s %s" % (ADDRESS, ADDRESS), line)
        if not found:
            return None
        start, end = (int(digits, 16) for digits in found.groups())
        rises, self.ended = self.ended <= start < end, end
        return self.is_address(found[1]) and end % 4 == 0 and CODE <= end <= CODE + self.code, rises, (0, start)


def writes_x1(word):
    """Whether a plain instruction does; FENCE writes no register."""
    return word >> 7 & 31 == 1 and word & 127 != 0x0F


def computed_unit(words, at):
    """A computed jump or call, by its kind and its check's label and how far behind its destination that reads."""
    label = words[8] >> 12 if len(words) > 8 else 0
    for kind, past in PAST.items():
        if words[:15] == computed(at, words[0] >> 15 & 31, words[0] >> 20, label, kind):
            return kind, (label, past), 15
    return None


def unit(words, at):
    """The unit that begins at an address under a graph of version 3, as `common` tells it."""
    found, first = common(words, at), words[0]
    if found:
        return found
    to = jal_target(first, at, 1)
    if to is not None:
        return "direct", to, 1
    if first == LEAF_RETURN:
        return "leaf return", None, 1
    if words[:5] == enter(at):
        return "enter", None, 5
    rs1 = first >> 15 & 31
    size = masked(words, short_mask(rs1)) or masked(words, long_mask(rs1, first >> 20))
    return ("stores", None, size) if size else computed_unit(words, at)


class LeanPair(Pair):
    """An image's words, their version and a graph of version 3."""

    def __init__(self, version, words, text):
        super().__init__(version, words, text)
        self.froms = [start for start, _ in self.graph.ranges]

    def range_of(self, at):
        """The leaf range in which an address is, or None."""
        k = bisect_right(self.froms, at) - 1
        return self.graph.ranges[k] if k >= 0 and at < self.graph.ranges[k][1] else None

    def unit_at(self, at):
        found = unit(self.words_from(at), at)
        return found if found and self.graph.allows(*found[:2]) and self.may_stand(at, found[0]) else None

    def may_stand(self, at, kind):
        """Whether units of a kind may stand there, in a leaf range or outside of all."""
        if self.range_of(at) is None:
            return kind != "leaf return"
        return kind in IN_LEAF and not (kind == "plain" and writes_x1(self.words[(at - CODE) // 4]))

    def kind(self, at):
        return self.units[at][0] if at in self.units else None

    def next(self, at):
        return at + 4 * self.units[at][2]

    def is_entered(self, at):
        """Whether a gate stands there, directly before an enter."""
        return self.kind(at) == GATE and self.kind(at + 4) == "enter"

    def is_fresh(self, at):
        """Of a unit's start. The code's end is saved."""
        return self.kind(at) == "enter" or self.is_entered(at) or (at in self.units and self.range_of(at) is not None)

    def is_jump(self, at):
        """Whether a direct jump stands there, and no branch."""
        return self.kind(at) == "edge" and self.words[(at - CODE) // 4] & 127 == 0x6F

    def may_go_on(self, at):
        """Whether the unit at an address may go on to the next one, or never does, as rule Leaf asks."""
        if self.kind(at) in ENDING or self.is_jump(at) or self.is_entered(at):
            return True
        own, after = self.range_of(at), self.next(at)
        return after != self.end and self.range_of(after) == own if own else not self.is_fresh(after)

    def wrong_ranges(self):
        """The first addresses of leaf ranges that begin or end where no unit does."""
        return [start for start, end in self.graph.ranges if start not in self.units or (end not in self.units and end != self.end)]

    def may_lead(self, at, to):
        if at not in self.units or self.kind(at) == "direct":
            return self.kind(to) == "enter" or (to in self.units and to in self.froms)
        own = self.range_of(at)
        return to in self.units and (self.range_of(to) == own if own else not self.is_fresh(to))

    def lacking(self):
        """Targets without a gate of their class, where a transfer of its sort looks for one."""
        for label, (sort, targets) in self.graph.classes.items():
            for at in targets:
                gate = at + (8 if sort == "callclass" else 0)
                if not self.bears(gate, label) or self.is_entered(gate) != (sort == "callclass"):
                    yield at

    def astray(self):
        """Gates of a class's label that stand at none of its targets."""
        for at, (kind, label, _) in self.units.items():
            if kind == GATE and label in self.graph.classes:
                sort, targets = self.graph.classes[label]
                if at - (8 if sort == "callclass" else 0) not in targets:
                    yield at

    def failing(self):
        yield "Leaf", self.wrong_ranges() + [at for at in self.units if not self.may_go_on(at)]
        yield from super().failing()


def pair_of(version, words, text):
    """A pair by the version of its graph, whose text is right."""
    return (LeanPair if text.startswith(b"rvcfi-graph 3\n") else Pair)(version, words, text)


def told(version, words, text):
    """What is told of a pair: its graph is refused, or a rule rejects it, or it is accepted."""
    fault = graph_fault(text, GraphText)
    return "refused 23 " + fault if fault else pair_of(version, words, text).verdict()
