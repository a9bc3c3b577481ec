#!/usr/bin/env python3
"""Prints what each form of hardening, masks for several stores and lists of system calls cost: steps and bytes of code.

    python3 bench/costs.py [--program PATH] [--level=-O2]

README.md beside this file says what is measured and what it needs.
"""

import sys
import tempfile
from pathlib import Path

sys.dont_write_bytecode = True
sys.path.insert(0, str(Path(__file__).resolve().parents[1]))

from bench.overhead import mean
from tests.shared import programs
from tests.shared.command import Words
from tests.shared.forms import FORMS
from tests.shared.programs import CALLS, PROGRAMS, Hardened
from tools.explain import units
from tools.explain.texts import ONE, image_code
from tools.sysroot.compilers import Missing, gcc

EIGHT = 0, 1, 62, 63, 64, 93, 94, 2047
CHOICES = {**{"`%s`" % form: (form, None) for form in FORMS}, "a list of 3": ("plain", CALLS), "a list of 8": ("plain", EIGHT)}
MASK = 3  # words
ALONE = "each store alone"


def hardened(tool, joined, form, calls):
    """An object hardened in a form, under a list of system calls or none."""
    policy = "none" if calls is None else programs.policy_file(calls, joined + ".%d.policy" % len(calls))
    made = Hardened(tool, joined, form, policy)
    if made.told[0] or made.verified()[0]:
        sys.exit("%s %s: %s" % (joined, form, made.told[1].decode()))
    return made


def ran(made, program):
    """The steps of a run, in which hart 0 alone goes on, and the bytes of code."""
    status, _, report = made.run(program.input)
    if status:
        sys.exit("%s: the run ended with status %d" % (made.image, status))
    return int(report["steps"][0]), made.code_size()


def later_stores(image):
    """The addresses of the stores behind the first of a mask."""
    words = image_code(image)
    found = [unit for unit in units.split(words, ONE) if unit.kind == "store"]
    return {at for unit in found for at in range(unit.address + 4 * MASK + 4, unit.address + 4 * unit.size, 4)}


def alone(made, program, steps, size):
    """What it would take if each store had a mask of its own: three words more for each later store, and each time that it is run."""
    later = later_stores(made.image)
    times = sum(at in later for at in programs.addresses_run(programs.for_qemu(made.image), program.input))
    return steps + MASK * times, size + 4 * MASK * len(later)


def measured(tool, compiler, level, program, folder):
    """The steps and the bytes of a program that is not hardened, and of each choice."""
    joined = programs.joined(compiler, level, program, folder)
    plain = programs.linked(joined)
    found = {"not hardened": (programs.counted(plain, program.input)[1], programs.code_size(plain))}
    for name, (form, calls) in CHOICES.items():
        made = hardened(tool, joined, form, calls)
        found[name] = ran(made, program)
        if name == "`plain`":
            found[ALONE] = alone(made, program, *found[name])
    return found


def tell(processor, names, rows):
    """A table: what a program takes without hardening, and how many times as much with each choice."""
    for k, what in enumerate(("steps", "bytes of code")):
        print("\n%s, %s\n" % (processor, what))
        print("| program | " + " | ".join(names) + " |")
        print("|---" * (1 + len(names)) + "|")
        for program, found in rows:
            first = found["not hardened"][k]
            print("| `%s` | %s | %s |" % (program.name, "{:,}".format(first), " | ".join("%.2f" % (found[name][k] / first) for name in names[1:])))
        means = [mean([found[name][k] / found["not hardened"][k] for _, found in rows]) for name in names[1:]]
        print("| in the mean | | %s |" % " | ".join("%.2f" % each for each in means))


def ratios(rows, name, first_rows, first, k):
    """How many times as much each program takes with a choice as with another one: the mean, and from where to where."""
    found = [row[name][k] / first_row[first][k] for (_, row), (_, first_row) in zip(rows, first_rows)]
    return "%.2f (%.2f to %.2f)" % (mean(found), min(found), max(found))


def choose(names, found):
    """A table for choosing: what each choice takes beside the program for rv64im that is hardened in the form `plain`."""
    first, choices = found["rv64im"], [(name, "rv64im", name) for name in names if name != "`plain`"]
    choices += [("`rv64i`, not hardened", "rv64i", "not hardened"), ("`rv64i`", "rv64i", "`plain`"), ("`-fpic`", "-fpic", "`plain`")]
    print("\n| beside `plain` for rv64im | steps | bytes of code |\n|---|---|---|")
    for told, kind, name in choices:
        print("| %s | %s |" % (told, " | ".join(ratios(found[kind], name, first, "`plain`", k) for k in range(2))))


def main():
    words = Words(__doc__)
    words.add_argument("--level", default="-O2", help="with =, as --level=-Os")
    options = words.parse_args()
    names = ["not hardened", "`plain`", ALONE] + [name for name in CHOICES if name != "`plain`"]
    try:
        kinds = {processor: gcc(processor) for processor in programs.PROCESSORS}
    except Missing as what:
        sys.exit("not measured, since there is no %s" % what)
    kinds["-fpic"], found = programs.shared(kinds["rv64im"]), {}
    with tempfile.TemporaryDirectory() as folder:
        for kind, compiler in kinds.items():
            tool = options.program
            found[kind] = [(program, measured(tool, compiler, options.level, program, folder)) for program in PROGRAMS]
            if kind in programs.PROCESSORS:
                tell(kind, [name for name in names if "harts" not in name], found[kind])  # four words more, once
    choose(names, found)


if __name__ == "__main__":
    main()
