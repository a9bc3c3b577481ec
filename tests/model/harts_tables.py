#!/usr/bin/env python3
"""Prints the tables of crates/test_harts/src/commands.rt: `python3 tests/model/harts_tables.py [--check] [NAME ..]`.

A row is the lines of a script between its first and its last, a command line, and the status and the text that the model beside
this file gives of it. `rounds HARTS N` stands for N rounds, in each of which each hart takes one step. In a race a row stands for
several scripts: one hart takes K steps, for each K that the row has, then come the lines of the row, and then the hart goes on.
The programs are those of worked.py.
"""

import sys
from itertools import groupby
from pathlib import Path

sys.dont_write_bytecode = True
sys.path.insert(0, str(Path(__file__).resolve().parents[2]))

from tests.model.program import Program
from tests.model.worked import a_of_harts, apart, jobs, q, shared
from tests.shared import tables
from tests.shared.instructions import ECALL, addi
from tools.simulator.runs import answer


def a_of_one():
    """Exits with 7, and is for one hart."""
    p = Program(1)
    p.label("main")
    p.plain(addi(10, 0, 7), addi(17, 0, 93), ECALL)
    p.stop()
    return p.built("main")


PROGRAMS = {"one": a_of_one(), "a": a_of_harts(), "shared": shared(), "jobs": jobs(), "q": q(2), "apart": apart(2)}
LABELS = PROGRAMS["jobs"].labels
F, G, MAIN, LOADER = (LABELS[name] for name in ("f", "g", "main", "loader"))
GIVEN = b"0123456789"
JOB, POINTER, PAIR = 0x10000, 0x10040, 0x10080
STACKS, STACK, SHADOW, PART = 2**28, 2**20, 0x60000000, 2**16
END = SHADOW + 8 * PART


def at(step, address, *values):
    """Changes double words."""
    return "at %d %08x %s" % (step, address, b"".join(value.to_bytes(8, "little") for value in values).hex())


def job(hart, name, step=0):
    """Gives a hart a job."""
    return at(step, JOB + 8 * hart, LABELS[name])


def pair(hart, address, value=0, step=0):
    """Gives a hart an address and a value."""
    return at(step, PAIR + 16 * hart, address, value)


def saved(hart):
    """Where a hart saves the address to which its first call returns."""
    return STACKS - STACK * hart - 8


def slot(hart, k):
    """A slot of a hart on the shadow stack, from its oldest on."""
    return SHADOW + PART * hart + 8 + 8 * k


def turns(*pairs):
    return ["turn %d %d" % pair for pair in pairs]


def around(harts, pair_of=None, rounds=90):
    """All call, and each has stored at an address of the next one."""
    return ["harts %d" % harts, "rounds %d %d" % (harts, rounds)] + [job(hart, "caller") for hart in range(harts)] + [
        pair(hart, *pair_of((hart + 1) % harts)) for hart in range(harts) if pair_of]


# the program, the script, the input, how many steps at most
RUNS = [
    ("one", ["harts 1", "turn 0 5"], "none", 100),
    ("one", ["harts 2", "turn 1 20"], "none", 100),
    ("one", ["harts 2", "turn 2 1"], "none", 100),
    ("a", None, "none", 1000000),
    ("a", ["harts 1", "turn 0 5"], "none", 100),
    ("a", ["harts 2", "turn 1 0"], "none", 100),
    ("a", ["harts 2", "turn 1 1", "at 3 00010000 00", "turn 1 1"], "none", 100),
    ("a", ["harts 9"], "none", 100),
    ("a", ["turn 0 1"], "none", 100),
    # hart 0 loads after another one has stored, or before
    ("shared", ["harts 2", "turn 1 20"], "none", 1000),
    ("shared", ["harts 2", "turn 1 19"], "none", 1000),
    ("shared", ["harts 8", "turn 6 20", "turn 3 20"], "none", 1000),
    ("shared", ["harts 8", "turn 6 19", "turn 3 20", "turn 6 1"], "none", 1000),
    ("shared", ["harts 3", "turn 2 27"], "none", 1000),
    ("shared", ["harts 2", "turn 1 20", "at 20 00010000 09"], "none", 1000),
    ("shared", ["harts 2", "turn 1 19", "at 19 00010000 09"], "none", 1000),
    ("shared", ["harts 2", "turn 1 19", "turn 0 1", "turn 1 1", "at 20 00010000 09"], "none", 1000),
    # each step is another hart's
    ("jobs", ["harts 2", "rounds 2 90"], "none", 1000),
    ("jobs", around(2), "none", 1000),
    ("jobs", around(2, lambda next: (POINTER, G)), "none", 1000),
    ("jobs", around(2, lambda next: (POINTER, MAIN)), "none", 1000),
    ("jobs", around(2, lambda next: (saved(next), G)), "none", 1000),
    ("jobs", around(8, lambda next: (saved(next), G)), "none", 1000),
    ("jobs", around(8, lambda next: (slot(next, 0), G)), "none", 1000),
    ("jobs", around(8, lambda next: (slot(next, 1), G)), "none", 1000),
    # all stand in the middle of a unit when one stops the run
    ("jobs", around(8)[:1] + turns(*[(hart, 47 + 4 * hart) for hart in range(7)], (7, 77)) + around(8)[2:], "none", 1000),
    ("jobs", ["harts 7"] + turns((0, 68), (1, 38), (2, 50), (4, 38), (6, 31)), "none", 1000),
    ("jobs", ["harts 4"] + turns((2, 60), (0, 52), (3, 39), (0, 24)), "none", 1000),
    ("jobs", ["harts 8"] + turns((6, 30), (5, 20), (7, 57364)), "none", 1000000),
    ("jobs", ["harts 8"] + turns((7, 57363), (0, 1)), "none", 57364),
    # loads: other harts' slots, the last ones of the shadow stack, and behind it
    ("jobs", ["harts 6"] + turns((5, 41)), "none", 1000),
    ("jobs", ["harts 6"] + turns((0, 14), (5, 41)), "none", 1000),
    ("jobs", ["harts 6"] + turns((0, 62), (5, 41)) + [pair(5, slot(0, 1))], "none", 1000),
    ("jobs", ["harts 6"] + turns((5, 41)) + [pair(5, END - 8)], "none", 1000),
    ("jobs", ["harts 6"] + turns((5, 41)) + [pair(5, SHADOW + PART - 4)], "none", 1000),
    ("jobs", ["harts 6"] + turns((0, 60), (5, 41)) + [pair(5, END - 7)], "none", 1000),
    ("jobs", ["harts 6"] + turns((0, 60), (5, 41)) + [pair(5, END)], "none", 1000),
    # the script changes what a hart is about to load: its job, its address, the pointer, where it returns to; or has loaded
    ("jobs", ["harts 6"] + turns((5, 17), (0, 20), (5, 90)) + [job(5, "caller", 37)], "none", 1000),
    ("jobs", ["harts 6"] + turns((5, 18), (0, 20), (5, 90)) + [job(5, "caller", 38)], "none", 1000),
    ("jobs", ["harts 6"] + turns((0, 20), (5, 33), (1, 9), (5, 90)) + [pair(5, POINTER, 0, 62)], "none", 1000),
    ("jobs", ["harts 6"] + turns((0, 20), (5, 34), (1, 9), (5, 90)) + [pair(5, POINTER, 0, 63)], "none", 1000),
    ("jobs", ["harts 3"] + turns((0, 30), (2, 90)) + [at(75, POINTER, MAIN)], "none", 1000),
    ("jobs", ["harts 3"] + turns((0, 30), (2, 90)) + [at(76, POINTER, MAIN)], "none", 1000),
    ("jobs", ["harts 3"] + turns((0, 30), (2, 90)) + [at(99, saved(2), MAIN)], "none", 1000),
    ("jobs", ["harts 3"] + turns((0, 30), (2, 90)) + [at(100, saved(2), MAIN)], "none", 1000),
    # harts read one input and write one output
    ("jobs", ["harts 5"] + turns((4, 1000)), "input", 1000),
    ("jobs", ["harts 5", "rounds 5 90"] + [job(hart, "echo") for hart in range(5)], "input", 1000),
    ("jobs", ["harts 5"] + turns((4, 38), (3, 45), (4, 4), (3, 90)) + [job(3, "echo")], "input", 1000),
    # limits, and turns that are not all taken
    ("jobs", around(8), "none", 333),
    ("jobs", ["harts 8", "turn 7 1000000000"], "none", 0),
    ("jobs", ["harts 4", "turn 3 10", "turn 3 10", "turn 2 1000000000"], "none", 21),
    ("jobs", ["harts 2", "turn 1 60", "turn 0 1000000000", "turn 1 1000000000"], "none", 1000),
    # graphs of version 2: each step is another hart's, while the pointers lead to what may be reached, to what the other kind of
    # transfer may reach, and behind a function's first word
    ("q", ["harts 8", "rounds 8 60"], "none", 1000),
    ("q", ["harts 3", "rounds 3 60", at(40, JOB, PROGRAMS["q"].labels["g"])], "none", 1000),
    ("q", ["harts 3", "rounds 3 60", at(40, JOB, PROGRAMS["q"].labels["h"])], "none", 1000),
    ("q", ["harts 3", "rounds 3 60", at(47, JOB, PROGRAMS["q"].labels["f"] + 4)], "none", 1000),
    ("q", ["harts 3", "rounds 3 60", at(46, JOB, PROGRAMS["q"].labels["f"] + 4)], "none", 1000),
    ("apart", ["harts 8", "rounds 8 90"], "none", 1000),
    ("apart", ["harts 4", "rounds 4 90", at(60, JOB, PROGRAMS["apart"].labels["both"])], "none", 1000),
    ("apart", ["harts 4", "rounds 4 90", at(81, JOB, PROGRAMS["apart"].labels["jumped"])], "none", 1000),
    ("apart", ["harts 4", "rounds 4 90", at(82, JOB, PROGRAMS["apart"].labels["jumped"])], "none", 1000),
    ("apart", ["harts 4", "rounds 4 90", at(150, JOB + 8, PROGRAMS["apart"].labels["called"])], "none", 1000),
    ("apart", ["harts 4", "rounds 4 90", at(195, JOB + 8, PROGRAMS["apart"].labels["called"])], "none", 1000),
]

CALLER = 77  # the steps of a hart that calls
STORES = 39  # the steps of a hart that stores, up to its store

# how many harts, which one begins, the most steps that it takes at first, the lines after that, the steps at most
RACES = [
    (2, 0, CALLER - 1, turns((1, STORES)), 1000),
    (2, 0, CALLER - 1, turns((1, STORES)) + [pair(1, POINTER, MAIN)], 1000),
    (2, 0, CALLER - 1, turns((1, STORES)) + [pair(1, POINTER, 0x40100000)], 1000),
    (2, 0, CALLER - 1, turns((1, STORES)) + [pair(1, JOB, LOADER)], 1000),
    (2, 0, CALLER - 1, turns((1, STORES)) + [pair(1, saved(0), G)], 1000),
    (2, 0, CALLER - 1, turns((1, STORES)) + [pair(1, slot(0, 0), G)], 1000),
    (2, 0, CALLER - 1, turns((1, STORES)) + [pair(1, slot(0, 1), G)], 1000),
    (2, 0, CALLER - 1, turns((1, 60)) + [job(1, "diver")], 1000),
    (2, 0, CALLER - 1, turns((1, 60)) + [job(1, "caller"), pair(1, saved(0), G)], 1000),
    (4, 0, CALLER - 1, turns((1, STORES), (3, STORES)), 1000),
    (4, 0, CALLER - 1, turns((1, STORES), (3, STORES)) + [pair(1, POINTER, MAIN), pair(3, POINTER, F)], 1000),
    (4, 2, CALLER - 1, turns((3, STORES), (2, 90)) + [pair(3, saved(2), G)], 1000),
    (8, 7, CALLER - 1, turns((0, STORES), (7, 90)) + [job(0, "storer"), job(7, "caller"), pair(0, POINTER, MAIN)], 1000),
]


def script_lines(lines):
    for line in lines:
        words = line.split()
        if words[0] == "rounds":
            for hart in list(range(int(words[1]))) * int(words[2]):
                yield "turn %d 1" % hart
        else:
            yield line


def answered(name, lines, given="none", limit=1000):
    script = None if lines is None else "\n".join(["rvcfi-script 2", *script_lines(lines), "end", ""]).encode()
    return answer(PROGRAMS[name], script, GIVEN if given == "input" else b"", limit)


def row(lines, command, told):
    return "%s | %s = %d: %s" % (",".join(lines), ",".join(command), told[0], told[1].decode().replace("\n", "\\n"))


def command(name, script, given, limit):
    return ["rvcfi", "run", name + ".img", name + ".graph", script, given, str(limit)]


def runs():
    for name, lines, given, limit in RUNS:
        script = "none" if lines is None else "script"
        yield row(lines or ["none"], command(name, script, given, limit), answered(name, lines, given, limit))


def races():
    for harts, first, most, lines, limit in RACES:
        told = lambda k: answered("jobs", ["harts %d" % harts] + turns((first, k)) + lines, limit=limit)
        for text, group in groupby(range(1, most + 1), told):
            group = list(group)
            head = ["%d %d from %d to %d" % (harts, first, group[0], group[-1])]
            yield row(head + lines, command("jobs", "script", "none", limit), text)


TABLES = {"runs": ("test_harts/src/commands.rt", lambda: tables.lines("const RUNS", runs())),
          "races": ("test_harts/src/commands.rt", lambda: tables.lines("const RACES", races()))}


if __name__ == "__main__":
    sys.exit(tables.main(__doc__, TABLES))
