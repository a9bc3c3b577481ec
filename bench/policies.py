#!/usr/bin/env python3
"""Prints what policies by types (tools/policy.py) give: of each program how many targets a computed call and a computed jump may reach at
most, without a policy and with it, which must run alike.

    python3 bench/policies.py [--program PATH] [--levels=-O2,..] [--form split]

README.md beside this file says what is measured and what it needs; pyelftools besides.
"""

import os
import sys
import tempfile
from pathlib import Path

sys.dont_write_bytecode = True
sys.path.insert(0, str(Path(__file__).resolve().parents[1]))

from bench.larger import INPUT, Grammar
from bench.split import ABSENT, checked, reach, steps
from tests.real.explained import python_with_elftools
from tests.shared import programs
from tests.shared.command import Words
from tests.shared.forms import FORMS
from tests.shared.paths import ROOT
from tests.shared.programs import PROGRAMS, STATES, Linked
from tools.sysroot import compilers

TOOL = str(ROOT / "tools" / "policy.py")
WITHOUT_ANCHORS = {"gcc": ["-fno-section-anchors"], "clang": []}
HEAD = ["program", "by", "calls", "at most", "jumps", "at most", "with a line", "code", "steps"]


def compiled(compiler, level, folder, paths):
    """The objects of sources with debugging information, with what every program needs."""
    own = compiler._replace(options=compiler.options + ["-g", "-w", "-I", programs.SOURCES] + WITHOUT_ANCHORS[compiler.name])
    objects = [programs.compiled(own, level, name, folder) for name in programs.LIBRARY[own.processor]]
    for path in paths:
        objects.append(os.path.join(folder, os.path.basename(path) + ".o"))
        compilers.must(own.command + own.options + [level, "-c", path, "-o", objects[-1]])
    return objects


def written(folder, sources):
    """The paths of sources that are drawn."""
    paths = [os.path.join(folder, "larger%d.c" % number) for number in range(len(sources))]
    for path, text in zip(paths, sources):
        with open(path, "w") as file:
            file.write(text)
    return paths


def cases(folder):
    """Of each program its name, its sources and its input."""
    for program in PROGRAMS:
        yield program.name, [programs.source(name) for name in program.files], program.input
    yield STATES.name, [programs.STATES_SOURCE], STATES.input
    yield "larger", written(folder, list(Grammar(1, 160).sources())), INPUT


def row(tool, form, objects, given):
    """The cells of a program, or none where it computes no transfer."""
    plain = checked(Linked(tool, objects, objects[-1], form))
    policy = objects[-1] + ".policy"
    told = compilers.must([python_with_elftools(), TOOL, *objects, policy]).decode()
    typed = checked(Linked(tool, objects, objects[-1], form, policy))
    sites = [made.classes()[1] for made in (plain, typed)]
    if not sites[0]:
        return None
    (before, put), (after, also_put) = steps(plain, given), steps(typed, given)
    if put != also_put:
        sys.exit("%s: the two put something else" % objects[-1])
    cells = []
    for kind in ("call", "jump"):
        first, second = (reach(each, kind) for each in sites)
        cells += ["%d" % first[0], "%d / %d" % (first[1], second[1])]
    return cells + [told.split()[3], "%d / %d" % (plain.code_size(), typed.code_size()), "%d / %d" % (before, after)]


def main():
    words = Words(__doc__)
    words.add_argument("--levels", default="-O2", help="with =, as --levels=-O2,-Os")
    words.add_argument("--form", default="plain", choices=FORMS)
    options = words.parse_args()
    print("| %s |\n|%s" % (" | ".join(HEAD), "---|" * len(HEAD)))
    with tempfile.TemporaryDirectory() as folder:
        for number, (compiler, level) in enumerate((each, level) for each in programs.compilers_here(ABSENT) for level in options.levels.split(",")):
            own = os.path.join(folder, str(number))
            os.mkdir(own)
            for name, paths, given in cases(own):
                cells = row(options.program, options.form, compiled(compiler, level, own, paths), given)
                if cells:
                    print("| %s |" % " | ".join([name, "%s %s" % (compiler.name, level)] + cells), flush=True)


if __name__ == "__main__":
    main()
