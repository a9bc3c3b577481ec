#!/usr/bin/env python3
"""Asks `tools/explain.py words` of command lines, and rvcfi of the same: one must find a fault where the other answers with status 2.

    python3 tests/real/command_lines.py [--program PATH] [--lines N] [--seed N]

The lines are drawn from commands, words, numbers, forms and options, in a folder where none of the files is. What is told of some
lines is known from docs/COMMANDS.md. The last line counts what was asked, and the status is 1 where one failed.
"""

import random
import sys
import tempfile
from pathlib import Path

sys.dont_write_bytecode = True
sys.path.insert(0, str(Path(__file__).resolve().parents[2]))

from tests.shared.command import Words
from tests.shared.forms import FORMS
from tools.command_line import RIGHT, commands, told
from tools.sysroot import compilers


SHORT = ["", "-h", "--help", "-V", "--version", "--", "-", "-x", "--steps=5", "--vers", "-hx", "-Vh"]
LIKE = {"FORM": [*FORMS, "Plain", "both"],
        "STEPS": ["1", "0000000001", "1000000000", "1000000001", "00000000001", "1k", "+1", "-1"],
        "NUMBER": ["1000000001", "00000000007", "x", "1 "]}
KNOWN = [
    ("", "No command is named"), ("verfy a b", "`verify` is meant"), ("link none main", "POLICY IMAGE GRAPH MAP OBJECT is missing"),
    ("verify a", "GRAPH is missing"), ("verify a b c", "`c` is too much"), ("verify -a b", "`-a` begins with `-`"), ("verify -- -a b", RIGHT),
    ("verify a --help", "`--help` is answered only where nothing else"), ("run a b none none 1k", "`1k` is no STEPS"),
    ("run a b none none 1000000001", "STEPS is at most 1000000000"), ("harden plane o e none i g m", "`plane` is no FORM"),
    ("rewrite o e none x g x", "Two of IMAGE, GRAPH and MAP are equal"), ("compare o e none same same none 5", RIGHT)]


def drawn(draw, known):
    """A command line that is nearly right."""
    name = draw.choice(list(known))
    words = [draw.choice(LIKE.get(each, ["a", "b", "none"])) for each in known[name] if each != ".."]
    for _ in range(draw.choice([0, 0, 1, 1, 2])):
        at = draw.randrange(len(words) + 1)
        words[at:at + draw.randrange(2)] = draw.choice([[], ["c"], [draw.choice(SHORT)]])
    return [draw.choice([name] * 8 + ["verfy", "--", "help"])] + words if draw.random() > 0.05 else words


def answered(tool, words, folder):
    """The status of the program, which finds none of the files."""
    return compilers.run([tool] + words, cwd=folder).returncode


def faults(options, folder):
    """What is told and should not be."""
    draw, known = random.Random(options.seed), commands()
    lines = [[name, "--help"] for name in known] + [line.split() for line, _ in KNOWN] + [[word] for word in SHORT]
    lines += [drawn(draw, known) for _ in range(options.lines)]
    for words in lines:
        status, text = answered(options.program, words, folder), told(words)
        if (status == 2) == text.startswith(RIGHT):
            yield "FAILED %r: status %d, and told is: %s" % (words, status, text)
    for line, wanted in KNOWN:
        if wanted not in told(line.split()):
            yield "FAILED %s: told is: %s" % (line, told(line.split()))


def main():
    words = Words(__doc__)
    words.add_argument("--lines", type=int, default=1000)
    words.add_argument("--seed", type=int, default=1)
    options = words.parse_args()
    with tempfile.TemporaryDirectory() as folder:
        failed = list(faults(options, folder))
    asked = len(commands()) + 2 * len(KNOWN) + len(SHORT) + options.lines
    print("\n".join(failed + ["%d passed, %d failed" % (asked - len(failed), len(failed))]))
    return 1 if failed else 0


if __name__ == "__main__":
    sys.exit(main())
