#!/usr/bin/env python3
"""Prints what labels of their own for calls and jumps give and cost: for each program how many targets a computed call and a
computed jump may reach, at most and in the mean, and the bytes of code and the steps, in the form `plain` and in `split`.

    python3 bench/split.py [--program PATH] [--levels=-O2,-Os,..] [--object PATH ENTRY ..]

README.md beside this file says what is measured and what it needs.
"""

import os
import sys
import tempfile
from pathlib import Path

sys.dont_write_bytecode = True
sys.path.insert(0, str(Path(__file__).resolve().parents[1]))

from tests.shared import programs
from tests.shared.command import Words
from tests.shared.programs import PROGRAMS, STATES, Hardened, states_object

FORMS = "plain", "split"
ABSENT = "not measured, since there is no %s: %s"
HEAD = ["program", "by", "calls", "at most", "in the mean", "jumps", "at most", "in the mean", "code", "steps"]


class Given(Hardened):
    """An object of the command line, hardened in a form."""

    def __init__(self, tool, path, entry, form):
        self.entry = entry
        super().__init__(tool, path, form)


def reach(sites, wanted):
    """How many sites of a kind there are, and how many targets they may reach, at most and in the mean."""
    counts = [len(targets) for kind, targets in sites if kind == wanted]
    return (len(counts), max(counts), sum(counts) / len(counts)) if counts else (0, 0, 0.0)


def checked(made):
    if made.told[0] or made.verified() != (0, b"accepted\n"):
        sys.exit("%s, %s: %s" % (made.image, made.form, made.told[1].decode()))
    return made


def steps(made, given):
    """The steps of a run to its exit, and what it puts."""
    status, output, report = made.run(given)
    if status:
        sys.exit("%s, %s: the run ended with status %d" % (made.image, made.form, status))
    return int(report["steps"][0]), output


def row(name, by, pair, given=None):
    """A line of the table, of an object in both forms; none where nothing is computed, and the two are equal."""
    plain, split = (checked(made) for made in pair)
    sites = [made.classes()[1] for made in (plain, split)]
    if not sites[0]:
        return None
    cells = [name, by]
    for kind in ("call", "jump"):
        first, second = (reach(each, kind) for each in sites)
        cells += ["%d" % first[0], "%d / %d" % (first[1], second[1]), "%.1f / %.1f" % (first[2], second[2])]
    cells.append("%d / %d" % (plain.code_size(), split.code_size()))
    if given is None:
        return cells + ["not run"]
    (first, put), (second, also_put) = steps(plain, given), steps(split, given)
    if put != also_put:
        sys.exit("%s %s: the two put something else" % (name, by))
    return cells + ["%d / %d" % (first, second)]


def rows(tool, levels, folder):
    for compiler in programs.compilers_here(ABSENT):
        for level in levels:
            for program in PROGRAMS + [STATES]:
                is_own = program is STATES
                joined = states_object(compiler, level, folder) if is_own else programs.joined(compiler, level, program, folder)
                pair = [Hardened(tool, joined, form) for form in FORMS]
                yield row(program.name, "%s %s" % (compiler.name, level), pair, program.input)


def given_rows(tool, objects, folder):
    """The rows of objects of the command line, which are hardened and not run."""
    for path, entry in objects:
        copy = os.path.join(folder, os.path.basename(path) + "_joined.o")
        with open(path, "rb") as source, open(copy, "wb") as target:
            target.write(source.read())
        yield row(os.path.basename(path), "", [Given(tool, copy, entry, form) for form in FORMS])


def main():
    words = Words(__doc__)
    words.add_argument("--levels", default="-O1,-O2,-Os", help="with =, as --levels=-O2,-Os")
    words.add_argument("--object", nargs=2, action="append", default=[], metavar=("PATH", "ENTRY"), help="one more object, not run")
    options = words.parse_args()
    tool = options.program
    print("| %s |" % " | ".join(HEAD))
    print("|%s" % ("---|" * len(HEAD)))
    with tempfile.TemporaryDirectory() as folder:
        for cells in filter(None, [*rows(tool, options.levels.split(","), folder), *given_rows(tool, options.object, folder)]):
            print("| %s |" % " | ".join(cells))


if __name__ == "__main__":
    main()
