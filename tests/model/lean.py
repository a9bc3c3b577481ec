#!/usr/bin/env python3
"""Runs the model of graphs of version 3: of the rules, of runs and of hardening in the forms `lean` and `harts-lean`.

    python3 tests/model/lean.py [--program PATH] [--many N] [--seed N] [--levels=-O2,..]

(a) Each row of lean_rows.py and lean_cases.py has to have its literal numbers, and each row of the tables of the crate test_lean
those of the model. (b) Each pair of lean_faults.py has to be rejected by the rule that its row tells, and its run has to leave its
graph where and as the row tells, or to stay in it where it tells that. Rules and parts of them are switched off in turn, and some
such pair whose run leaves its graph has to be accepted then. (c) No run of a drawn pair that is accepted may leave its graph. (d)
Small and drawn objects are compared with what they become in each form, and nothing may differ. (e) Where levels are named, the
programs of tests/real are compiled, and have to run hardened as in form `split`. With a program, its
`verify` is asked of the pairs of versions 1 and 2 that confinement.py has and of each pair of version 3, and its `run` of those that
are accepted and of programs that fill the shadow stack, and both have to answer as this model does; of the rows of (a) its
commands are asked too, and its `harden` of more objects. The status is 1 where something failed.
"""

import argparse
import sys
import tempfile
from collections import Counter
from pathlib import Path

sys.dont_write_bytecode = True
sys.path.insert(0, str(Path(__file__).resolve().parents[2]))

from tests.model import (
    accepted, compared_drawn, faults, lean_asked, lean_cases, lean_crate, lean_drawn, lean_faults, lean_kinds, lean_real, lean_rows,
    lean_switched)
from tests.model.confined import started
from tests.model.confinement import Told
from tests.model.lean_rules import pair_of, told as told_of
from tests.model.lean_walk import LeanStatement


def run_rows(told, asked):
    """That the model or a program answers as the rows have it."""
    lean_kinds.ask(told, (row for rows in (*lean_rows.ALL, *lean_cases.ALL) for row in rows()), asked)


def failure_of(fault):
    """Where the run of a row leaves its graph, or None."""
    built = fault.built
    statement = LeanStatement(pair_of(built.version, built.words, built.graph), built.graph)
    return statement.failure(started(built, fault.harts), fault.steps())


def run_faults(told):
    """That rows are as they tell; what is answered are the pairs whose runs leave their graphs."""
    rules, left = Counter(), []
    for fault in lean_faults.faults():
        said, failure = told_of(fault.built.version, fault.built.words, fault.built.graph), failure_of(fault)
        told.check(said.startswith("rejected %s " % fault.rule), "%s: %s, not %s" % (fault.name, said, fault.rule))
        got = (failure.pc, failure.clauses) if failure else (None, ())
        told.check(got == (fault.pc, fault.clauses), "%s: %s, not at %s %s" % (fault.name, failure, fault.pc, fault.clauses))
        rules[fault.rule] += 1
        left += [fault.built] if failure else []
    counts = ", ".join("%s %d" % each for each in sorted(rules.items()))
    print("with a fault: %d pairs (%s); the runs of %d leave their graph" % (sum(rules.values()), counts, len(left)))
    return left


def run_tables(told):
    count, lines = lean_crate.checks()
    for _ in range(count - len(lines)):
        told.check(True, "")
    run_checks(told, lines)
    print("rows of the tables of test_lean: %d" % count)


def run_checks(told, lines):
    """That nothing fails: each line tells of what does."""
    for line in lines:
        told.check(False, line)


def run_program(told, seed, levels):
    """What a program tells of pairs and of objects."""
    pairs = [built for _, built in accepted.pairs(seed, 1)] + [fault.built for fault in faults.faults()]
    for number, built in enumerate(pairs):
        said = told_of(built.version, built.words, built.graph)
        got = told.verified(built.image, built.graph)
        told.check(got == (0 if said == "accepted" else 1, said + "\n"), "pair %d: the program says %r, not %s" % (number, got, said))
    print("asked of the program: %d pairs of versions 1 and 2" % len(pairs))
    run_rows(told, lean_kinds.Program(told.program, told.folder))
    lean_asked.check_pairs(told, seed)
    lean_asked.check_steps(told)
    lean_asked.check_deepest(told)
    compared_drawn.check_program(told, seed)
    lean_asked.check_objects(told, levels)


def main():
    words = argparse.ArgumentParser(description=__doc__, formatter_class=argparse.RawDescriptionHelpFormatter)
    words.add_argument("--program", help="asked to verify pairs, and to run those of version 3 that are accepted")
    words.add_argument("--many", type=int, default=1, help="so many times as many drawn pairs, at least 1")
    words.add_argument("--seed", type=int, default=1)
    words.add_argument("--levels", help="of compiled programs; with =, as --levels=-O2,-Os")
    options = words.parse_args()
    if options.many < 1:
        words.error("--many is at least 1")
    if options.program and not Path(options.program).exists():
        words.error("there is no program %s" % options.program)
    with tempfile.TemporaryDirectory() as folder:
        told = Told(options.program and str(Path(options.program).resolve()), folder)
        run_rows(told, lean_kinds.Model())
        run_tables(told)
        run_checks(told, lean_switched.checks(run_faults(told)))
        run_checks(told, lean_drawn.checks(options.seed, options.many))
        run_checks(told, compared_drawn.checks(options.seed, options.many))
        levels = options.levels.split(",") if options.levels else []
        run_checks(told, lean_real.checks(levels) if levels else ())
        if options.program:
            run_program(told, options.seed, levels)
    print("%d passed, %d failed" % (told.passed, told.failed))
    return 1 if told.failed else 0


if __name__ == "__main__":
    sys.exit(main())
