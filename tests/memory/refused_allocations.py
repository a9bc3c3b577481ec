#!/usr/bin/env python3
"""Refuses each allocation of the commands in turn, on the real program.

    python3 tests/memory/refused_allocations.py [--program PATH] [--each]

Each refusal has to end with status 5, with nothing printed; what it may write are the first of the files that the
command writes where nothing is refused, each whole, and no file else may change. Or the command does without the
memory: then status, text and files are those where nothing is refused. `demo` makes many thousand allocations, of
which some 200 are refused, evenly spread, or all with --each. It needs Linux with glibc, cc, and the program, which
`cd crates/rvcfi && rt run` builds. It prints for each command how many allocations it makes, how many were refused
and how many of these it did without. A command that makes none is an error.
"""

import os
import re
import struct
import subprocess
import sys
import tempfile
from pathlib import Path

sys.dont_write_bytecode = True
sys.path.insert(0, str(Path(__file__).resolve().parents[2]))

from tests.shared.command import Words
from tests.shared.forms import FORMS
from tests.shared.paths import CRATES
from tests.shared.units import UNITS, image_file, prologue

HERE = os.path.dirname(os.path.abspath(__file__))
NO_MEMORY = 5
SECONDS = 60

# The units of programs as binutils assemble them (exits.s, b.s, h.s and status.s of tests/units), their data, and the
# lines of their graphs after the opening's call.
# One exits with 7, one returns with 7, one writes its data, one exits with the first byte of its data.
EXITS = [0x00700513, 0x05D00893, 0x00000073, 0xFB5FF06F]
RETURNS = [0x00700513, 0xFF81BF83, 0xFF818193, 0x001F8463, 0xFB5FF06F, 0x000F8067, 0xFA9FF06F]
WRITES = [
    0xFF010113, 0x00810F93, 0x024F9F93, 0x024FDF93, 0x001FB023, 0x03019F13, 0x000F1463, 0xFADFF06F, 0x00000F17,
    0x014F0F13, 0x01E1B023, 0x00818193, 0x024000EF, 0x00000513, 0x00813083, 0x01010113, 0xFF81BF83, 0xFF818193,
    0x001F8463, 0xF79FF06F, 0x000F8067, 0xC0010597, 0xF6C58593, 0x00100513, 0x00300613, 0x04000893, 0x00000073,
    0xFF81BF83, 0xFF818193, 0x001F8463, 0xF4DFF06F, 0x000F8067, 0xF41FF06F,
]
STATUS = [0x000102B7, 0x0002B503, 0x05D00893, 0x00000073, 0xFB1FF06F]
PROGRAMS = {
    "exits": (EXITS, b"", ""),
    "returns": (RETURNS, b"", ""),
    "writes": (WRITES, b"hi\n", "call 40000054 40000094\n"),
    "status": (STATUS, b"", ""),
}

# Objects that tests use, by their names in crates/sample_objects: one returns 7, one puts a text, one calls one of two
# functions through a table, one calls itself 8,190 times.
OBJECTS = {"returns.o": "B", "puts.o": "H", "calls.o": "P", "recurs.o": "R"}
MOST, TOO_DEEP = bytes.fromhex("1305e5ff"), bytes.fromhex("1305f5ff")  # addi a0,a0,-2 and -1, after lui a0,2

TEXTS = {
    "script": "rvcfi-script 1\nat 11 00010000 05\nend\n",
    "other": "rvcfi-script 1\nat 0 00010000 e4000040\nend\n",
    "policy": "rvcfi-policy 1\nsite main+10 f+0\nend\n",
    "wrong": "rvcfi-policy 1\nsite main+14 f+0\nend\n",
    "list": "rvcfi-policy 2\ncalls 64 93\nend\n",
    "short": "rvcfi-policy 2\ncalls 93\nend\n",
    "equal": "rvcfi-policy 2\ncalls 64 64\nend\n",
}

# The words, the status and a line of the answer where nothing is refused, and the files that are written.
THREE = ("image", "graph", "map")
COMMANDS = [
    ("verify exits.img exits.graph", 0, "accepted", ()),
    ("verify returns.img returns.graph", 0, "accepted", ()),
    ("verify writes.img writes.graph", 0, "accepted", ()),
    ("verify exits.img returns.graph", 1, "rejected Length 80 92", ()),
    ("verify exits.img script", 1, "refused 23 Graph 1 Form", ()),
    ("run exits.img exits.graph none none 100", 0, "stop exit 7", ()),
    ("run returns.img returns.graph none none 100", 0, "steps 17", ()),
    ("run writes.img writes.graph none script 100", 0, "steps 41", ()),
    ("run status.img status.graph script none 100", 0, "stop exit 5", ()),
    ("run status.img status.graph exits.graph none 100", 1, "refused 25 Script 1 Form", ()),
    ("rewrite returns.o main none image graph map", 0, "rewritten code 92 data 0 classes 0 sites 0", THREE),
    ("verify image graph", 0, "accepted", ()),
    ("run image graph none none 100", 0, "stop exit 7", ()),
    ("compare returns.o main none image map none 100", 0, "same 1", ()),
    ("rewrite returns.o nain none image graph map", 1, "refused 17 NoEntry", ()),
    ("rewrite puts.o main none image graph map", 0, "rewritten code 196 data 3 classes 0 sites 0", THREE),
    ("run image graph none none 100", 0, "steps 41", ()),
    ("compare puts.o main none image map none 100", 0, "same 2", ()),
    ("rewrite puts.o main list image graph map", 0, "rewritten code 216 data 3 classes 0 sites 0", THREE),
    ("verify image graph", 0, "accepted", ()),
    ("run image graph none none 100", 0, "steps 43", ()),
    ("compare puts.o main list image map none 100", 0, "same 2", ()),
    ("rewrite puts.o main short image graph map", 0, "rewritten code 208 data 3 classes 0 sites 0", THREE),
    ("run image graph none none 100", 10, "stop handler __cfi_bad_target", ()),
    ("compare puts.o main short image map none 100", 13, "untame call 1 52", ()),
    ("rewrite puts.o main equal image graph map", 1, "refused 18 Policy 2", ()),
    ("rewrite recurs.o main none image graph map", 0, None, THREE),
    ("compare recurs.o main none image map none 100000", 0, "same 1", ()),
    ("rewrite deep.o main none image graph map", 0, None, THREE),
    ("compare deep.o main none image map none 100000", 13, "untame deep 1 28", ()),
    ("run image graph none none 200000", 10, "steps 114684", ()),
    ("rewrite calls.o main policy image graph map", 0, "rewritten code 256 data 16 classes 1 sites 1", THREE),
    ("run image graph other none 100", 10, "stop handler __cfi_bad_target", ()),
    ("rewrite calls.o main wrong image graph map", 1, "refused 18 Policy 2", ()),
    ("harden split calls.o main wrong image graph map", 1, "refused 18 Policy 2", ()),
    ("link plain main none image graph map returns.o", 0, "rewritten code 92 data 0 classes 0 sites 0", THREE),
    ("compare-link main none image map none 100 returns.o", 0, "same 1", ()),
    ("link plain main none image graph map puts.o returns.o", 1, "refused 27 Duplicate main", ()),
    ("demo 1", 0, "compare same 1", ()),
]
IN_EACH_FORM = [
    ("harden FORM puts.o main list image graph map", 0, None, THREE),
    ("verify image graph", 0, "accepted", ()),
    ("run image graph none none 100", 0, None, ()),
    ("compare puts.o main list image map none 100", 0, "same 2", ()),
    ("link FORM main policy image graph map calls.o", 0, None, THREE),
    ("compare-link main policy image map none 100 calls.o", 0, "same 1", ()),
]
COMMANDS += [(words.replace("FORM", form), *row) for form in FORMS for words, *row in IN_EACH_FORM]


def sample_objects():
    """The bytes of the objects that tests use."""
    with open(CRATES / "sample_objects" / "src" / "lib.rt") as source:
        found = dict(re.findall(r'static (\w+): &\[u8\] = b"([^"]*)"', source.read()))
    objects = {name: bytes.fromhex(re.sub(r"[\\\s]", "", found[key])) for name, key in OBJECTS.items()}
    objects["deep.o"] = objects["recurs.o"].replace(MOST, TOO_DEEP)
    if objects["deep.o"] == objects["recurs.o"]:
        sys.exit("the object that calls itself has no such instruction")
    return objects


def write_file(folder, name, content):
    with open(os.path.join(folder, name), "wb") as out:
        out.write(content)


def write_files(folder):
    for name, (units, data, calls) in PROGRAMS.items():
        words = prologue(UNITS[1]) + units
        code = struct.pack("<%dI" % len(words), *words)
        graph = "rvcfi-graph 1\ncode 40000000 %08x\ncall 4000000c 40000040\n%send\n" % (len(code), calls)
        write_file(folder, name + ".img", image_file(code, data))
        write_file(folder, name + ".graph", graph.encode())
    for name, text in TEXTS.items():
        write_file(folder, name, text.encode())
    for name, content in sample_objects().items():
        write_file(folder, name, content)


def answer(program, folder, words, refused):
    environment = {"LD_PRELOAD": os.path.join(folder, "refuse.so"), "REFUSED": str(refused)}
    done = subprocess.run([program] + words.split(), cwd=folder, env=environment, stdout=subprocess.PIPE,
                          stderr=subprocess.PIPE, timeout=SECONDS)
    return done.returncode, done.stdout, done.stderr


def held(folder):
    """What each file of a folder holds."""
    files = {}
    for name in os.listdir(folder):
        with open(os.path.join(folder, name), "rb") as file:
            files[name] = file.read()
    return files


def restore(folder, files):
    for name in os.listdir(folder):
        if name not in files:
            os.remove(os.path.join(folder, name))
    for name, content in files.items():
        write_file(folder, name, content)


def undisturbed(program, folder, words, status, line):
    """The text of a command, which ends in this way where nothing is refused, and how many allocations it makes."""
    found, text, taken = answer(program, folder, words, 0)
    if found != status or line is not None and line.encode() not in text.split(b"\n"):
        sys.exit("%s: status %d, printed %r" % (words, found, text))
    if not taken.strip().isdigit() or int(taken) == 0:
        sys.exit("%s: no allocation was counted, but told was %r" % (words, taken))
    return text, int(taken)


def first_states(before, after, written):
    """The files after each number of the files that a command writes, from none to all."""
    return [{**before, **{name: after[name] for name in written[:count]}} for count in range(len(written) + 1)]


def refuse_each(program, folder, words, numbers, done, states):
    """Refuses allocations of a command in turn, and gives how many of them it did without. `done` is how it ends where
    nothing is refused, `states` are the files with none, the first ones and all of those that it writes."""
    without = 0
    for refused in numbers:
        found, now = answer(program, folder, words, refused), held(folder)
        if found == done and now == states[-1]:
            without += 1
        elif found != (NO_MEMORY, b"", b""):
            sys.exit("%s: allocation %d refused: status %d, printed %r %r" % (words, refused, *found))
        elif now not in states:
            changed = sorted(name for name in set(now) | set(states[0]) if now.get(name) != states[0].get(name))
            sys.exit("%s: allocation %d refused: changed files %s" % (words, refused, changed))
        if now != states[0]:
            restore(folder, states[0])
    return without


def chosen(words, count, each):
    step = 1 if each or not words.startswith("demo") else max(1, count // 200)
    return range(1, count + 1, step)


def main():
    parser = Words(__doc__)
    parser.add_argument("--each", action="store_true", help="each allocation of demo, too")
    options = parser.parse_args()
    total = spared = 0
    with tempfile.TemporaryDirectory() as folder:
        shim = os.path.join(folder, "refuse.so")
        subprocess.run(["cc", "-O1", "-shared", "-fPIC", "-o", shim, os.path.join(HERE, "refuse.c")], check=True)
        write_files(folder)
        for words, status, line, written in COMMANDS:
            before = held(folder)
            text, count = undisturbed(options.program, folder, words, status, line)
            after = held(folder)
            restore(folder, before)
            numbers = chosen(words, count, options.each)
            without = refuse_each(options.program, folder, words, numbers, (status, text, b""), first_states(before, after, written))
            restore(folder, after)
            print("%-60s %6d allocations, %d refused, %d done without" % (words, count, len(numbers), without), flush=True)
            total, spared = total + len(numbers), spared + without
    print("%d allocations were refused, %d of them done without, all others with status 5 and nothing printed" % (total, spared))


main()
