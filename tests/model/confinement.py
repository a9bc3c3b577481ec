#!/usr/bin/env python3
"""Runs the model of confinement: accepted pairs under attack, pairs with a fault, and the model with clauses switched off.

    python3 tests/model/confinement.py [--program PATH] [--many N] [--seed N]

(a) No run of an accepted pair may fail. (b) Each pair of faults.py has to be rejected by the rule that its row tells, and its run has to
fail where and as the row tells, or to be confined where it tells that. (c) Each clause of the statement is switched off in turn,
and some row of (b) has to pass by it; and each permission is taken away in turn, and some run of (a) has to fail by it. Pairs are
judged by tests/model/rules.py, and where a program is named by its `verify` too. `--many` draws so many times as many pairs. The last
line counts pairs, runs, rows and switches, and the status is 1 where one failed.
"""

import argparse
import subprocess
import sys
import tempfile
from collections import Counter
from pathlib import Path

sys.dont_write_bytecode = True
sys.path.insert(0, str(Path(__file__).resolve().parents[2]))

from tests.model import accepted
from tests.model.confined import Statement, may_start, started
from tests.model.faults import faults
from tests.model.file_faults import graph_fault, image_fault
from tests.model.rules import verdict
from tests.model.switched import STRICTER, WEAKER
from tools.simulator.machine import START

class Told:
    """How many checks passed, which failed, and the program that is asked too, if one is."""

    def __init__(self, program, folder):
        self.program, self.folder, self.passed, self.failed = program, Path(folder), 0, 0

    def check(self, is_right, text):
        self.passed, self.failed = self.passed + is_right, self.failed + (not is_right)
        if not is_right:
            print(text)

    def check_pair(self, name, built, rule=None):
        """That a pair is accepted, or is rejected by a rule, by the independent judge and by the program."""
        image, graph = built.image, built.graph
        fault = image_fault(image) or graph_fault(graph)
        said = "refused " + fault if fault else verdict(built.version, built.words, graph)
        wanted = "rejected %s " % rule if rule else "accepted"
        self.check(said.startswith(wanted), "%s: %s, not %s" % (name, said, wanted))
        if self.program:
            told = self.verified(image, graph)
            self.check(told == (0 if said == "accepted" else 1, said + "\n"), "%s: the program says %r, not %s" % (name, told, said))

    def verified(self, image, graph):
        paths = [self.folder / name for name in ("image", "graph")]
        for path, content in zip(paths, (image, graph)):
            path.write_bytes(content)
        done = subprocess.run([self.program, "verify", "--", *map(str, paths)], stdout=subprocess.PIPE, stderr=subprocess.STDOUT)
        return done.returncode, done.stdout.decode("latin-1")


def failure_of_case(case, statement=Statement):
    """Where a run of an accepted pair fails, and its machine at the end."""
    machine, steps = case.run()
    assert may_start(case.built, machine)
    return statement(case.built.version, case.built.graph).failure(machine, steps), machine


def end_of(machine):
    """How a run ended, in a word or two."""
    if machine.stop is None:
        return "still running"
    kind, at = machine.stop[:2]
    return "in a handler" if kind == "break" and at < START else {"exit": "by an exit", "break": "by a break", "load": "by a load"}[kind]


def run_accepted(told, seed, many):
    """Part (a). What is answered are the cases of some pairs, about as many for any `many`, on which part (c) takes permissions away."""
    sorts, ends, steps, kept = Counter(), Counter(), 0, []
    for number, (sort, built) in enumerate(accepted.pairs(seed, many)):
        sorts[sort] += 1
        name = "seed %d, pair %d, %s" % (seed, number, sort)
        told.check_pair(name, built)
        cases = list(accepted.cases(name, built))
        kept += cases if number % (1 + 2 * many) == 0 else []
        steps += sum(check_run(told, case, ends) for case in cases)
    for case in accepted.deep_cases():
        sorts["as deep as may be"] += 1
        kept.append(case)
        told.check_pair(case.seed, case.built)
        steps += check_run(told, case, ends)
    print("accepted: %d pairs (%s)" % (sum(sorts.values()), ", ".join("%d %s" % (count, sort) for sort, count in sorts.items())))
    print("their runs: %d, of %d steps (%s)" % (sum(ends.values()), steps, ", ".join("%d %s" % (n, end) for end, n in ends.most_common())))
    return kept


def check_run(told, case, ends):
    """That a run of an accepted pair is confined; how many steps it has."""
    failure, machine = failure_of_case(case)
    told.check(failure is None, "%s: %s" % (case.seed, failure))
    ends["failed" if failure else end_of(machine)] += 1
    return machine.steps


def failure_of_fault(fault, statement=Statement, limit=None):
    """Where the run of a row, or so many steps of it, fails."""
    steps = fault._replace(limit=limit or fault.limit).steps()
    return statement(fault.built.version, fault.built.graph).failure(started(fault.built, fault.harts), steps)


def run_faults(told):
    """Part (b): the rows that fail, each with its failure."""
    clauses, found = Counter(), []
    for fault in faults():
        told.check_pair(fault.name, fault.built, fault.rule)
        failure = failure_of_fault(fault)
        got = (failure.pc, failure.clauses) if failure else (None, ())
        told.check(got == (fault.pc, fault.clauses), "%s: %s, not at %s %s" % (fault.name, failure, fault.pc, fault.clauses))
        clauses[" and ".join(fault.clauses) or "none"] += 1
        found += [(fault, failure)] if failure else []
    print("with a fault: %d pairs, by the clause that fails: %s" % (sum(clauses.values()), ", ".join(
        "%s %d" % each for each in sorted(clauses.items()))))
    return found


def run_weaker(told, found):
    """Part (c): a row passes under each weaker statement up to the step at which it fails else."""
    rows = sorted(found, key=lambda row: row[1].step)
    for name, weaker, whole in WEAKER:
        is_shown = any(failure_of_fault(fault, whole, failure.step) and not failure_of_fault(fault, weaker, failure.step)
                       for fault, failure in rows)
        told.check(is_shown, "switched off without a row that shows it: %s" % name)


def run_stricter(told, kept):
    """Part (c): a run of an accepted pair fails under each stricter statement."""
    for name, stricter in STRICTER:
        told.check(any(failure_of_case(case, stricter)[0] for case in kept), "taken away without a run that shows it: %s" % name)
    print("switched off: %d clauses; taken away: %d permissions" % (len(WEAKER), len(STRICTER)))


def main():
    words = argparse.ArgumentParser(description=__doc__, formatter_class=argparse.RawDescriptionHelpFormatter)
    words.add_argument("--program", help="asked to verify each pair too")
    words.add_argument("--many", type=int, default=1, help="so many times as many drawn pairs, at least 1")
    words.add_argument("--seed", type=int, default=1)
    options = words.parse_args()
    if options.many < 1:
        words.error("--many is at least 1")
    with tempfile.TemporaryDirectory() as folder:
        told = Told(options.program and str(Path(options.program).resolve()), folder)
        kept = run_accepted(told, options.seed, options.many)
        run_weaker(told, run_faults(told))
        run_stricter(told, kept)
    print("%d passed, %d failed" % (told.passed, told.failed))
    return 1 if told.failed else 0


if __name__ == "__main__":
    sys.exit(main())
