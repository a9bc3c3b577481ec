#!/usr/bin/env python3
"""Writes a policy to start from: each computed call reaches functions of its C type alone, each jump of a table that table's labels.

    python3 tools/policy.py FILE.o .. program.policy [--calls 63 64 93]
    rvcfi link plain _start program.policy program.img program.graph program.map FILE.o ..

The objects, compiled with `-g`, stand in the order in which they will be linked. Neither compiler says of what type a computed call is,
so it is worked out along the instructions where its pointer comes from: from variables, members, parameters and results, whose types
debugging information has, or from a table that is `const`, whose functions are then all that it reaches. Types are told apart without
qualifiers and names, numbers by size and sign. A transfer of which this is not known gets no line, and joins what it reaches by itself
(gcc's `-fno-section-anchors` leaves fewer of these); a function without a known type may be called by each.

What is written is not trusted, only checked as any policy: the graph still holds of every run. Where a program calls a function by
another type than its own, it halts in __cfi_bad_target: `rvcfi compare` tells where. `--calls` lists the only system calls. It needs
Python 3.9 and pyelftools.
"""

import argparse
import sys
from typing import NamedTuple

sys.dont_write_bytecode = True

from explain.classes import Flow, Line
from explain.elf import OWN, hexadecimal
from explain.files import ended, objects_of
from explain.pointers import sites_of

SHOWN = 20


class Reach(NamedTuple):
    """What a site may reach, and by what that is told; or None, where it is not."""
    targets: object
    told: str


def reach_of(read, flow, types, site, value):
    """What a computed jump or call may reach, by what is known of its pointer."""
    kind = value[0] if value else None
    starts = flow.taken & flow.starts
    if kind == "fun":
        typed = {place: types.functions.get(place) for place in starts}
        return Reach({place for place in starts if not typed[place] or typed[place].signature in (None, value[1])}, value[1])
    if kind == "codes":
        return Reach({place for place in value[1] if place in flow.places}, "tables of functions")
    if flow.sites[site] == "jump" and kind in ("short", "void"):
        labels = value[1] if kind == "short" and value[1] else flow.targets(site) - starts
        return Reach(set(labels), "tables of labels")
    return Reach(None, "")


class Names:
    """Places as a policy names them: by a symbol before them, that of their function first, whose name means it."""

    def __init__(self, read):
        self.read, self.meant, self.by_section = read, {}, {}
        for symbol in read.symbols:
            if symbol.name and isinstance(symbol.section, int) and not set(symbol.name) & set(" \n"):
                self.by_section.setdefault(symbol.section, []).append(symbol)

    def is_meant(self, symbol):
        if symbol.name not in self.meant:
            self.meant[symbol.name] = self.read.named(symbol.name)[0]
        return self.meant[symbol.name] == symbol

    def others(self, place):
        """The symbols before a place, the nearest functions first, labels of a compiler last."""
        before = [symbol for symbol in self.by_section.get(place[0], []) if symbol.value <= place[1]]
        return sorted(before, key=lambda symbol: (symbol.name.startswith(OWN), symbol.kind != "STT_FUNC", -symbol.value))

    def name(self, place):
        function = self.read.function(place)
        if function is None or not self.is_meant(function):
            function = next((symbol for symbol in self.others(place) if self.is_meant(symbol)), None)
        return "%s+%s" % (function.name, hexadecimal(place[1] - function.value)) if function else None


def text_of(read, reached, calls):
    """The policy, whose lines are those of sites whose places have names."""
    heads = ["rvcfi-policy 2", "calls " + " ".join(map(str, sorted(set(calls))))] if calls else ["rvcfi-policy 1"]
    lines, named = [], Names(read)
    for site, reach in sorted(reached.items()):
        names = [named.name(place) for place in [site, *sorted(reach.targets)]] if reach.targets is not None else [None]
        if None not in names:
            lines.append("site " + " ".join(names))
    return "\n".join([*heads, *lines, "end", ""])


def largest(flow, lines, is_split):
    return max(map(len, flow.classes(lines, is_split).values()), default=0)


def told_of(read, flow, types, reached):
    """How many sites go by what, which have no line, and how large classes are with the policy and without."""
    known = {site: reach for site, reach in reached.items() if reach.targets is not None}
    yield from counted(known)
    yield from doubts(read, reached)
    for place in sorted(flow.taken & flow.starts):
        if place not in types.functions or not types.functions[place].signature:
            yield "of each type is %s: its own is not known" % read.name(place)
    lines = [Line(0, site, sorted(reach.targets)) for site, reach in known.items()]
    for form, is_split in (("plain", False), ("split", True)):
        sizes = largest(flow, lines, is_split), largest(flow, [], is_split)
        yield "the largest class in the form %s: %d targets, without this policy %d" % (form, *sizes)


def counted(known):
    """How many sites go by each type, and by tables."""
    by = {}
    for reach in known.values():
        by.setdefault(reach.told, []).append(len(reach.targets))
    for told, counts in sorted(by.items(), key=lambda row: (-len(row[1]), row[0])):
        yield "%6d sites by %s, of at most %d targets" % (len(counts), told, max(counts))


def doubts(read, reached):
    """The first sites without a line, and those that may go nowhere."""
    where = lambda site: read.name(site) + read.at_line(site)
    lost = [site for site, reach in sorted(reached.items()) if reach.targets is None]
    idle = [site for site, reach in sorted(reached.items()) if reach.targets is not None and not reach.targets]
    yield from ("no line for %s: where its pointer comes from is not known" % where(site) for site in lost[:SHOWN])
    yield from ("nowhere may go %s: no function of its type has its address taken" % where(site) for site in idle[:SHOWN])


def words_of_command():
    words = argparse.ArgumentParser(description=__doc__, formatter_class=argparse.RawDescriptionHelpFormatter)
    words.add_argument("objects", metavar="OBJECT", nargs="+")
    words.add_argument("out", metavar="OUT")
    words.add_argument("--calls", metavar="N", type=int, nargs="+", default=[], help="the only system calls of the program")
    return words.parse_args()


def main():
    options = words_of_command()
    read = objects_of(options.objects)
    flow = Flow(read)
    values, types = sites_of(read, flow)
    reached = {site: reach_of(read, flow, types, site, value) for site, value in values.items()}
    text = text_of(read, reached, options.calls)
    with open(options.out, "w", encoding="utf-8", errors="surrogateescape") as file:
        file.write(text)
    yield "%s: lines for %d of %d computed jumps and calls" % (options.out, text.count("\nsite "), len(flow.sites))
    yield from told_of(read, flow, types, reached)


if __name__ == "__main__":
    sys.exit(ended(main))
