#!/usr/bin/env python3
"""Counts the steps of a run of an image by function, and which of them are the program's own and which are hardening's.

    python3 tools/profile.py program.img program.map FILE.o .. [--input FILE] [--script FILE] [--steps N]
    qemu-riscv64 -one-insn-per-tb -d nochain,exec -D record program.qemu < FILE
    python3 tools/profile.py program.img program.map FILE.o .. --record record

The first runs the image by the machine of `simulator`, which is slow, and tells how it ended, in a handler also what was refused: the
number of a system call, or the address of a return, a call or a jump. The others count a record of qemu's (`-singlestep` before
version 8), or one with an address a line. The objects stand in the order in which they were linked. The columns (docs/MACHINE.md has the
units):

    program   what the objects have
    masks     of stores
    calls     what puts a call's site onto the shadow stack
    returns   what compares a return with it
    checks    of computed calls and jumps
    gates     the words before targets
    branches  the second word of a far branch
    lists     what compares the number of a system call
    rest      opening, closing, handlers, and ends of sections

It needs Python 3.9 and pyelftools, and is not trusted.
"""

import argparse
import re
import struct
import sys
from collections import Counter
from pathlib import Path
from types import SimpleNamespace

sys.dont_write_bytecode = True

from explain import units
from explain.files import ended, image_of, map_of, objects_of
from explain.texts import Wrong, image_code
from simulator.runs import Refused, Run, Script, script_of, stop_words

CODE_END = 0x40100000
COLUMNS = ["program", "masks", "calls", "returns", "checks", "gates", "branches", "lists", "rest"]
CALLED, CHECKED, MADE_ANEW = ["calls"] * 7, ["checks"] * 12, ["masks"] * 2
ADDED = {  # what stands before the program's own word or words, by the kind of a unit
    "call": CALLED, "return": ["returns"] * 4, "computed jump": CHECKED, "computed call": CHECKED + CALLED,
}
ADDED_LEAN = {"return": ["returns"] * 4, "computed jump": CHECKED + MADE_ANEW, "computed call": CHECKED + MADE_ANEW}
STEP = re.compile(r"^Trace .*\[[0-9a-f]+/([0-9a-f]+)/|^(?:0x)?([0-9a-f]{8,16})$")
NUMBER, LINK, CHECKED_AT = 17, 1, 31  # a7, ra, and what units compare


class Counting(Run):
    """A run that counts how often each address is stepped from."""

    def __init__(self, built, script, given, limit):
        self.counts, self.last, self.is_several = Counter(), {}, built.version == 2
        super().__init__(built, script, given, limit)

    def take(self, built, hart):
        pc = self.machine.pcs[hart]
        self.counts[pc] += 1
        self.last[hart] = [*self.last.get(hart, [])[-1:], pc]
        super().take(built, hart)


def words_of_unit(unit, is_lead, is_lean):
    """The column of each word of a unit."""
    if unit.kind == "enter":
        return ["calls"] * unit.size
    if is_lead:
        return ["gates"] * unit.size
    if unit.kind in ("opening", "closing", "stop") or unit.kind.startswith("handler"):
        return ["rest"] * unit.size
    if unit.kind == "branch":
        return ["program", "branches"]
    before = {"guarded call": ["lists"] * (unit.size - 1), "store": ["masks"] * unit.mask}
    added = before.get(unit.kind, (ADDED_LEAN if is_lean else ADDED).get(unit.kind, []))
    return added + ["program"] * (unit.size - len(added))


def columns_of(words, placed):
    """The column of each address of the code. What no place begins behind leads the unit that stands there."""
    split, gates, found = units.split(words, placed.prologue), set(placed.gates), {}
    nexts = [unit.address for unit in split[1:]] + [None]
    for unit, after in zip(split, nexts):
        is_lead = unit.address >= placed.prologue.units and after is not None and after not in gates
        for index, column in enumerate(words_of_unit(unit, is_lead, placed.prologue.is_lean)):
            found[unit.address + 4 * index] = column
    return found


def owner_of(read, placed, address):
    """The name of the function that an address is of, and where it begins: there may be two of a name."""
    place = placed.place(address)
    return (*read.owner(place), place[0]) if place else ("the prologue", 0, 0)


def name_of(read, placed, address):
    """What begins at an address, or in what it lies."""
    place = placed.place(address) if address < CODE_END else None
    return "%s%s" % ("" if address in placed.gates else "within ", read.name(place)) if place else "outside of the units"


def record_of(path):
    """How often each address stands in a record."""
    with open(path, encoding="ascii", errors="replace") as file:
        found = [STEP.match(line.strip()) for line in file]
    counts = Counter(int(row.group(1) or row.group(2), 16) for row in found if row)
    if not counts:
        raise Wrong("%s has no step" % path)
    return counts


def run_of(options, image, words, placed):
    """A run of the image."""
    start, filed = (struct.unpack_from("<Q", image, at)[0] for at in (72, 96))
    built = SimpleNamespace(version=placed.prologue.version, code=struct.pack("<%dI" % len(words), *words),
                            data=image[start:start + filed], starts=())
    given = Path(options.input).read_bytes() if options.input else b""
    try:
        script = script_of(Path(options.script).read_bytes()) if options.script else Script()
    except Refused as refused:
        raise Wrong("line %d of %s is wrong: %s" % (refused.args[0], options.script, refused.args[1])) from refused
    return Counting(built, script, given, options.steps)


def table(rows, total):
    """A line a function, those with the most steps first, and one of all."""
    yield "%-28s %9s" % ("function", "steps") + "".join(" %9s" % column for column in COLUMNS)
    for name, counts in sorted(rows.items(), key=lambda row: (-sum(row[1].values()), row[0])) + [(("all",), total)]:
        yield "%-28s %9d" % (name[0], sum(counts.values())) + "".join(" %9d" % counts[column] for column in COLUMNS)


def told_end(run, columns, name):
    """How a run ended, and in a handler what was refused: the number of a system call, or an address."""
    yield "stop %s%s" % ("hart %d " % run.hart if run.is_several and run.stop else "", stop_words(run.stop)[0])
    if not run.stop or run.stop[0] != "break":
        return
    registers, column = run.machine.registers[run.hart], columns.get(run.last[run.hart][0])
    if column == "lists":
        yield "a7 %d, the number of the system call that its list refused" % registers[NUMBER]
    elif column == "checks":
        yield "x31 %x %s, where it would have gone" % (registers[CHECKED_AT], name(registers[CHECKED_AT]))
    elif column == "returns":
        yield "ra %x %s, where it would have returned to, and x31 %x %s, where it should" % tuple(
            each for at in (LINK, CHECKED_AT) for each in (registers[at], name(registers[at])))


def words_of_command():
    words = argparse.ArgumentParser(description=__doc__, formatter_class=argparse.RawDescriptionHelpFormatter)
    words.add_argument("image", metavar="IMAGE")
    words.add_argument("map", metavar="MAP")
    words.add_argument("objects", metavar="OBJECT", nargs="+")
    words.add_argument("--input", metavar="FILE", help="what the program reads")
    words.add_argument("--script", metavar="FILE", help="changes and turns, as `rvcfi run` takes them")
    words.add_argument("--steps", type=int, default=1000000, help="how many steps at most (1000000)")
    words.add_argument("--record", metavar="FILE", help="counts this record in place of a run")
    return words.parse_args()


def main():
    options = words_of_command()
    read, image = objects_of(options.objects), image_of(options.image)
    placed, words = map_of(options.map, read, image), image_code(options.image)
    columns, rows, total = columns_of(words, placed), {}, Counter()
    run = None if options.record else run_of(options, image, words, placed)
    for address, count in (run.counts if run else record_of(options.record)).items():
        column = columns.get(address, "rest")
        rows.setdefault(owner_of(read, placed, address), Counter())[column] += count
        total[column] += count
    name = lambda address: name_of(read, placed, address)
    return [*table(rows, total), *(told_end(run, columns, name) if run else [])]


if __name__ == "__main__":
    sys.exit(ended(main))
