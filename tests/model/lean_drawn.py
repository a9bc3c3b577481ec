"""Pairs with graphs of version 3 that are drawn: objects with leaves, hardened, and such with a change, and runs of those that are
accepted, under an attacker who changes data before each step. No run may leave its graph. And undisturbed runs of drawn objects begin the
same instructions in these forms as in form `split`, up to the same end.

A change is one of a word or a line, or a direct transfer that leads to another unit with its line, or a leaf range that begins or ends
elsewhere: most of these are rejected, and what is accepted all the same has to be as safe as the others.
"""

import random
from collections import Counter

from tests.model import drawn
from tests.model.accepted import LISTS, Case, Writing
from tests.model.forms import LEAN, LISTING, ROWS, STORING
from tests.model.hardener import Hardening, Source, small_object
from tests.model.lean_hardener import LeanHardening
from tests.model.lean_program import NOP, enter
from tests.model.lean_rules import pair_of, told
from tests.model.lean_walk import LeanStatement
from tests.model.rules import jal_target
from tests.shared.instructions import RETURN, addi, beq, jal, jalr, jump, lui, u_form
from tests.shared.texts import policy_text
from tools.simulator.machine import CODE, START, Machine


class LeanWriting(Writing):
    """An object that is being drawn, some of whose functions are leaves, or would be one but for a word, and others are jumped to."""

    def function(self):
        kind = self.rng.random()
        if self.starts[self.names[0]] == 4 * len(self.words) or kind < 0.5:
            return super().function()
        if kind > 0.95:
            self.put(self.rng.choice((lui(0, 9), addi(1, 1, 0))))
        for _ in range(self.rng.randrange(1, 5)):
            self.rng.choice((self.arithmetic, self.branch, self.store, self.system_call, self.loop))()
        if kind > 0.9:
            self.pointer()
            return self.put(jalr(0, 5))
        return self.put(addi(10, 10, 1), *([RETURN] if kind < 0.85 else [beq(10, 6, 8), jump(0, -4), RETURN]))


def hardened(rng, count):
    """The small objects of tests/model/forms.py, and drawn ones, in both forms, with and without a list."""
    for row in ROWS + STORING + LISTING:
        for form in LEAN:
            yield LeanHardening(Source(small_object(row)), row.entry, form, row.policy_text()).built
    for _ in range(count):
        calls = rng.choice(LISTS)
        source = Source(LeanWriting(rng, tuple(calls)).object().file())
        for form in LEAN:
            yield LeanHardening(source, "main", form, policy_text(*rng.choice(((), (calls,))))).built


def retargeted(rng, built, units):
    """A direct transfer leads to another unit, and its line tells so."""
    jumps = [at for at, unit in units.items() if unit[0] in ("edge", "direct")
             and jal_target(built.words[(at - CODE) // 4], at, unit[0] == "direct") is not None]
    if not jumps:
        return ranged(rng, built, units)
    at, wanted = rng.choice(jumps), rng.choice(("enter", None))
    kind, old, _ = units[at]
    to = rng.choice([start for start, unit in units.items() if wanted in (unit[0], None)] or list(units))
    words, rd = list(built.words), int(kind == "direct")
    words[(at - CODE) // 4] = jal(rd, at, to)
    name = "call" if rd else "edge"
    return words, built.graph.replace(b"\n%s %08x %08x\n" % (name.encode(), at, old), b"\n%s %08x %08x\n" % (name.encode(), at, to))


def ranged(rng, built, units):
    """A leaf range begins or ends at another unit, or is gone, or there is one more."""
    lines, starts = built.graph.decode().split("\n"), sorted(units)
    found = [k for k, line in enumerate(lines) if line.startswith("leaf")]
    if not found or rng.random() < 0.2:
        at = 3 if lines[2].startswith("calls") else 2
        first, last = sorted(rng.sample(starts, 2))
        return built.words, "\n".join(lines[:at] + ["leaf %08x %08x" % (first, last)] + lines[at:]).encode()
    k = rng.choice(found)
    words = lines[k].split(" ")
    which = rng.randrange(1, 3)
    near = [start for start in starts if abs(start - int(words[which], 16)) < 64]
    words[which] = "%08x" % rng.choice(near or starts)
    lines[k:k + 1] = [" ".join(words)] * (rng.random() < 0.9)
    return built.words, "\n".join(lines).encode()


def led(rng, built, units):
    """A word of a lead is another one: a gate, a word that does nothing, or an enter's first."""
    enters = [at for at, unit in units.items() if unit[0] == "enter"]
    if not enters:
        return ranged(rng, built, units)
    at, words = rng.choice(enters) + rng.choice((-8, -4, -4, -4, 16, 20, 20)), list(built.words)
    label = rng.choice([unit[1] for unit in units.values() if unit[0] == "gate"] or [1])
    words[(at - CODE) // 4] = rng.choice((NOP, u_form(0x37, 0, label), u_form(0x37, 0, 9), jal(0, at, at + 24), RETURN, enter(at)[4]))
    return words, built.graph


def changed(rng, built):
    """A pair with a change, which may be a fault."""
    pair = pair_of(built.version, built.words, built.graph)
    pair.split()
    if rng.random() < 0.3:
        return drawn.changed(rng, built)
    words, graph = rng.choice((retargeted, ranged, led))(rng, built, pair.units)
    return built._replace(words=list(words), graph=graph)


def failure_of(case):
    """Where a run of an accepted pair leaves its graph, or None; and how many steps it has."""
    machine, steps = case.run()
    pair = pair_of(case.built.version, case.built.words, case.built.graph)
    return LeanStatement(pair, case.built.graph).failure(machine, steps), machine.steps


def cases(name, built, runs):
    """Runs of a pair: of one hart or of several, half of them from any start."""
    starts = pair_of(built.version, built.words, built.graph).starts()
    for k in range(runs):
        seed = "%s, run %d" % (name, k)
        harts = random.Random(seed).randrange(1, 9) if built.version == 2 and k else 1
        yield Case(built._replace(starts=starts), seed, harts, 200 * (1 + harts // 3), k % 2 == 1)


def way(made, limit=1500):
    """Which instructions of an object the undisturbed run of its program begins, and how it ends: with which status, or in which handler."""
    machine = Machine(made.built.version, made.built.code, made.built.data, b"abc", 1)
    places, begun, stop = {at: k for k, at in enumerate(made.layout.words)}, [], None
    while limit and not stop:
        begun += [places[at] for at in machine.pcs if at in places]
        stop, limit = machine.step(0), limit - 1
    return begun, stop and (stop[0], stop[1] if stop[0] == "exit" or stop[1] < START else None)


def unlike_ways(rng, count):
    """Drawn objects whose programs go another way in these forms than with masks and calls of version 2, each told in a line."""
    for number in range(count):
        calls = rng.choice(LISTS)
        source = Source(LeanWriting(rng, tuple(calls)).object().file())
        policy = policy_text(*rng.choice(((), (calls,))))
        wanted, ended = way(Hardening(source, "main", "split", policy))
        for form in LEAN:
            got, end = way(LeanHardening(source, "main", form, policy))
            both = min(len(got), len(wanted))
            is_same = (got, end) == (wanted, ended) if end and ended else got[:both] == wanted[:both]
            if not is_same:
                yield "drawn object %d in form %s goes another way" % (number, form)


def pairs(rng, many):
    """Drawn pairs, each with its sort."""
    whole = list(hardened(rng, 60 * many))
    yield from (("hardened", built) for built in whole)
    yield from (("changed", changed(rng, rng.choice(whole))) for _ in range(2500 * many))


def checks(seed, many):
    """What fails, told in a line; and at last what was counted."""
    yield from unlike_ways(random.Random("ways %d" % seed), 100 * many)
    said, runs, steps = Counter(), 0, 0
    for number, (sort, built) in enumerate(pairs(random.Random(seed), many)):
        answer = told(built.version, built.words, built.graph)
        said["%s: %s" % (sort, " ".join(answer.split()[:2] if answer != "accepted" else [answer]))] += 1
        if sort == "hardened" and answer != "accepted":
            yield "pair %d of seed %d: %s" % (number, seed, answer)
        for case in cases("seed %d, pair %d" % (seed, number), built, 2) if answer == "accepted" else ():
            failure, count = failure_of(case)
            runs, steps = runs + 1, steps + count
            if failure:
                yield "%s (%s): %s" % (case.seed, sort, failure)
    print("drawn: " + ", ".join("%s %d" % each for each in sorted(said.items())))
    print("their runs: %d, of %d steps" % (runs, steps))
