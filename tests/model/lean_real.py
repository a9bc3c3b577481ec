"""Compiled programs of tests/real in the forms of graphs of version 3: accepted, with and without a list of system calls, and their
undisturbed runs end as those in form `split` do, with the same output. It tells what they cost against that form."""

import math
import tempfile
from pathlib import Path

from tests.model.forms import LEAN
from tests.model.hardener import CALLS, Hardening, Source
from tests.model.lean_hardener import LeanHardening
from tests.model.lean_rules import pair_of, told
from tests.shared import programs
from tests.shared.texts import policy_text
from tools.simulator.runs import Run, Script

STEPS = 3000000


def run_of(built, starts, given):
    """How the undisturbed run of a program ends, what it puts out, and how many steps and bytes of code it has."""
    run = Run(built._replace(starts=starts), Script(), given, STEPS)
    return (run.stop, run.machine.output), (run.steps, len(built.code))


def compiled(levels, folder):
    """The programs of each compiler that there is: a name, the object and the input."""
    for compiler in programs.compilers_here("not run, since there is no %s: programs of %s", programs.PROCESSORS):
        for level in levels:
            for program in programs.PROGRAMS:
                name = "%s of %s for %s %s" % (program.name, compiler.name, compiler.processor, level)
                yield name, Path(programs.joined(compiler, level, program, folder)).read_bytes(), program.input


def checks(levels):
    """What differs, told in a line; and at last the means of what is counted."""
    ratios = []
    with tempfile.TemporaryDirectory() as folder:
        for name, content, given in compiled(levels, folder):
            source = Source(content)
            ended, costs = run_of(Hardening(source, programs.ENTRY, "split").built, set(), given)
            for form in LEAN:
                listed = LeanHardening(source, programs.ENTRY, form, policy_text(CALLS)).built
                built = LeanHardening(source, programs.ENTRY, form).built
                said = [told(each.version, each.words, each.graph) for each in (built, listed)]
                if said != ["accepted"] * 2:
                    yield "%s in form %s: %s" % (name, form, said)
                    continue
                got, own = run_of(built, pair_of(built.version, built.words, built.graph).starts(), given)
                if got != ended:
                    yield "%s in form %s: %s, not %s" % (name, form, got, ended)
                ratios += [[a / b for a, b in zip(own, costs)]] if form == "lean" else []
    means = tuple(math.exp(sum(map(math.log, each)) / len(ratios)) for each in zip(*ratios)) or (0, 0)
    print("compiled programs: %d; against `split` %.3f times the steps and %.3f times the code in the mean" % (len(ratios), *means))
