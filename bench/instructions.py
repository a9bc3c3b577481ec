#!/usr/bin/env python3
"""Counts instructions of `rvcfi`, by valgrind's callgrind: `python3 bench/instructions.py [--program PATH] [--example PATH]`.

Printed are those of `verify` of bench/verify.py's images of 1,024 KiB, with one store behind a mask, with several, and lean; of `rewrite` and
`verify` of bench/rewrite.py's 950 functions; and those of a step of `run`, of `loop` and of the compiled programs of bench/run.py, as the
difference of two runs of other lengths, in which the start falls out, and of bench/run.py's `loop` and `worker` for several harts, by its
scripts of turns; the steps also of the library's example `run` (library/build.sh), which calls `rvcfi_run`. The same program, files and
machine give the same counts.
"""

import os
import re
import subprocess
import sys
import tempfile
from pathlib import Path

sys.dont_write_bytecode = True
sys.path.insert(0, str(Path(__file__).resolve().parents[1]))

from bench import run
from bench.verify import KINDS, written
from tests.shared.command import Words
from tests.shared.families import compiled

SHORT, LONG = 100000, 300000  # steps of the two runs
EXAMPLE = os.path.join(os.path.dirname(os.path.abspath(__file__)), "..", "library", "out", "run")
CALLGRIND = ["valgrind", "--tool=callgrind", "--callgrind-out-file=/dev/null"]


def instructions(command):
    """How many instructions a command takes."""
    told = subprocess.run(CALLGRIND + command, stdout=subprocess.DEVNULL, stderr=subprocess.PIPE, text=True).stderr
    return int(re.search(r"Collected : (\d+)", told).group(1))


def of_a_step(command, paths, given):
    """How many instructions a step of a run takes, by this command."""
    counts = [instructions([*command, *paths, "none", given, str(steps)]) for steps in (SHORT, LONG)]
    return (counts[1] - counts[0]) / (LONG - SHORT)


def print_files(program, folder):
    for kind, what in zip(KINDS, ("one store behind a mask", "several", "lean")):
        print("verify of 1,024 KiB, %s: %d" % (what, instructions([program, "verify", *written(folder, 1024, kind)[0]])))
    path = os.path.join(folder, "functions.o")
    with open(path, "wb") as out:
        out.write(compiled(folder, 950))
    made = [path + end for end in (".img", ".graph", ".map")]
    print("rewrite of 950 functions: %d" % instructions([program, "rewrite", path, "f0", "none", *made]))
    print("verify of them: %d" % instructions([program, "verify", *made[:2]]))


def print_steps(what, command, cases):
    for name, paths, given in cases:
        print("%s, a step of %s: %.1f" % (what, name, of_a_step(command, paths, given)))


def print_harts(what, command, folder):
    """A step of the programs for several harts: the commands are in pairs, all steps and none."""
    for name, build in (("loop", run.looping), ("worker", run.working)):
        counts = [instructions(each) for each in run.hart_commands(command, folder, name, build)]
        for (turns, *_), long, short in zip(run.turn_scripts(), counts[::2], counts[1::2]):
            print("%s, a step of %s, %s: %.1f" % (what, name, turns, (long - short) / run.HART_STEPS))


def main():
    asked = Words(__doc__)
    asked.add_argument("--example", default=EXAMPLE, help="the library's example run")
    asked = asked.parse_args()
    with tempfile.TemporaryDirectory() as folder:
        print_files(asked.program, folder)
        cases = [("loop", run.write_pair(folder, "loop", run.loop(run.MANY)), "none")]
        cases += [(case.name, case.paths, case.given) for case, _ in run.compiled_cases(asked.program, folder)]
        programs = [("run", [asked.program, "run"])]
        if os.path.exists(asked.example):
            programs.append(("rvcfi_run for C", [asked.example]))
        else:
            print("not run, since %s is not there (library/build.sh): rvcfi_run for C" % asked.example)
        for what, command in programs:
            print_steps(what, command, cases)
            print_harts(what, command, folder)


if __name__ == "__main__":
    sys.exit(main())
