"""Accepted pairs, and runs of them under an attacker who changes data before each step.

The pairs are the small objects of tests/model/forms.py and drawn ones, hardened in each form by the model of tests/model, with and
without a list of system calls; programs that tests/model/drawn.py draws unit by unit, and such with a fault that is none.
"""

import random
import struct
from itertools import product
from typing import NamedTuple

from tests.model import drawn
from tests.model.confined import PART_SIZE, HartStep, part_of, slot, started
from tests.model.faults import base, call, small
from tests.model.forms import FORMS, LISTING, MOST, ROWS, STORING
from tests.model.hardener import Hardening, Source, small_object
from tests.model.rules import verdict
from tests.model.small_objects import FUNC, HI20, LO12_I, OBJECT, made
from tests.shared.instructions import EBREAK, ECALL, RETURN, addi, beq, jalr, jump, ld, lui, sd
from tests.shared.texts import policy_text
from tests.shared.units import CODE
from tools.simulator.machine import DATA, DATA_END

LISTS = ((63, 64, 93), (5,), MOST)
POINTERS = 12
STACKS, STACK = 2**28, 2**20
DEEP = 9 * 8192 + 100  # steps of a hart that calls itself until it halts


class Case(NamedTuple):
    """A run of an accepted pair: the seed of its attacker, how many harts and steps, and whether all that may is arbitrary at its start."""
    built: object
    seed: str
    harts: int = 1
    limit: int = 600
    is_wild: bool = False

    def run(self):
        """The machine at the start, and the steps, which are drawn as it goes on."""
        rng = random.Random(self.seed)
        machine = started(self.built, self.harts, rng.randbytes(rng.choice((0, 3, 20))))
        attack = Attack(rng, self.built, machine)
        if self.is_wild:
            attack.begin()
        return machine, attack.steps(self.limit)


class Attack:
    """An attacker who knows the program and sees the machine: to the addresses that he likes belong gates, call sites, words within
    units and slots of the shadow stack."""

    def __init__(self, rng, built, machine):
        self.rng, self.machine = rng, machine
        at = lambda is_one: [CODE + 4 * k for k, word in enumerate(built.words) if is_one(word)]
        gates = at(lambda word: word & 0xFFF == 0x37)
        sites = [address + 4 for address in at(lambda word: word & 0xFFF in (0xEF, 0xE7))]
        anywhere = range(CODE, CODE + 4 * len(built.words) + 8, 2)
        self.aims = [each for each in (gates, sites, sorted(built.starts), anywhere, range(CODE, CODE + 0x50, 4)) if len(each)]
        self.strength = rng.choice((0, 0.02, 0.1, 0.4))

    def aim(self):
        """An address that he likes, or a number that is none."""
        rng, kind = self.rng, self.rng.random()
        if kind < 0.8:
            return rng.choice(rng.choice(self.aims)) + rng.choice((0, 0, 0, 0, 0, 4, -4, 8, 1, 2))
        if kind < 0.9:
            return slot(part_of(rng.randrange(8)), rng.randrange(4))
        return rng.choice((0, 5, 63, 64, 93, 94, DATA, DATA_END - 4, 2**64 - 8, rng.getrandbits(64)))

    def begin(self):
        """Gives anything to all registers but x10, to the shadow stack and to data."""
        machine, harts = self.machine, len(self.machine.pcs)
        for k, x in enumerate(machine.registers):
            x[1:] = [self.aim() % 2**64 for _ in x[1:]]
            x[10] = k
        for part in (part_of(k) for k in range(machine.shadow_size // PART_SIZE)):
            for n in (*range(-1, 12), 8189, 8190):
                machine.write(slot(part, n), 8, self.aim() % 2**64)
        for k in range(40 * harts):
            machine.write(STACKS - STACK * (k // 40) - 8 * (k % 40), 8, self.aim() % 2**64)
        for k in range(self.rng.choice((0, 6, 24))):
            machine.write(DATA + 8 * k, 8, self.aim() % 2**64)

    def loaded(self, hart):
        """The address that the next instruction of a hart loads from, if it loads from data."""
        word = self.machine.read(self.machine.pcs[hart], 4)
        imm = (word >> 20) - (word >> 31 << 12)
        address = (self.machine.registers[hart][word >> 15 & 31] + imm) % 2**64
        return address if word & 127 == 0x03 and address + 8 <= DATA_END else None

    def place(self, hart):
        """An address in data: of a pointer, in a hart's stack, or anywhere."""
        rng, kind = self.rng, self.rng.random()
        if kind < 0.4:
            return DATA + 8 * rng.randrange(24)
        stack = self.machine.registers[hart][2]
        if kind < 0.9 and 64 <= stack < DATA_END - 128:
            return stack + 8 * rng.randrange(-4, 12)
        return rng.randrange(DATA_END - 8)

    def changes(self, hart):
        """The bytes that are changed before a step of a hart."""
        if self.rng.random() > self.strength:
            return ()
        address = self.loaded(hart)
        if address is None or self.rng.random() < 0.3:
            address = self.place(hart)
        return tuple(zip(range(address, address + 8), struct.pack("<Q", self.aim() % 2**64)))

    def steps(self, limit):
        """So many steps, of one hart or of several in turns of any length."""
        rng, hart = self.rng, 0
        most = rng.choice((1, 5, 50))
        for _ in range(limit):
            if rng.randrange(most) == 0:
                hart = rng.randrange(len(self.machine.pcs))
            yield HartStep(hart, self.changes(hart))


class Writing:
    """An object that is being drawn: functions that call, jump and return, make system calls, and store over their pointers."""

    def __init__(self, rng, numbers):
        self.rng, self.numbers, self.words, self.relocations, self.starts = rng, numbers, [], [], {}
        self.names = ["main"] + ["f%d" % k for k in range(rng.randrange(2, 7))]
        for name in self.names:
            self.starts[name] = 4 * len(self.words)
            self.function()

    def put(self, *words):
        self.words += words

    def object(self):
        """The object, whose direct calls now know where their functions begin."""
        ends = [*list(self.starts.values())[1:], 4 * len(self.words)]
        symbols = [(name, FUNC, at, end - at) for (name, at), end in zip(self.starts.items(), ends)]
        symbols += [("p%d" % k, OBJECT, 8 * k, 8) for k in range(POINTERS)]
        words = [word if isinstance(word, int) else jump(1, self.starts[word] - 4 * k) for k, word in enumerate(self.words)]
        called = [name for name in self.names if name != "main"]
        return made("DRAWN", words, symbols, self.relocations, [self.rng.choice(called) for _ in range(POINTERS)])

    def function(self):
        """Saves its return address, does some things, and returns or goes on elsewhere."""
        self.put(addi(2, 2, -16), sd(1, 2, 8))
        kinds = self.arithmetic, self.call, self.computed_call, self.branch, self.store, self.system_call, self.loop
        for _ in range(self.rng.randrange(1, 7)):
            self.rng.choice(kinds)()
        if self.rng.random() < 0.3:
            self.pointer()
            self.put(ld(1, 2, 8), addi(2, 2, 16), jalr(0, 5))
        else:
            self.put(ld(1, 2, 8), addi(2, 2, 16), RETURN)

    def pointer(self):
        """Loads a pointer to x5."""
        name, at = "p%d" % self.rng.randrange(POINTERS), 4 * len(self.words)
        self.relocations += [(at, HI20, name), (at + 4, LO12_I, name)]
        self.put(lui(5, 0), ld(5, 5, 0))

    def arithmetic(self):
        self.put(addi(self.rng.randrange(6, 10), self.rng.randrange(6, 12), self.rng.randrange(-99, 99)))

    def call(self):
        self.put(self.rng.choice(self.names[1:]))

    def computed_call(self):
        self.pointer()
        self.put(jalr(1, 5))

    def branch(self):
        """Goes over a word or two, or not."""
        over = self.rng.choice((1, 2))
        self.put(beq(self.rng.randrange(6, 12), 6, 4 * over + 4), *[addi(6, 6, 1)] * over)

    def loop(self):
        self.put(addi(7, 7, 1), beq(7, self.rng.choice((0, 6, 8)), -4))

    def store(self):
        """Stores what it has behind its stack's end, or over a pointer."""
        self.put(*[sd(self.rng.randrange(5, 12), 2, -8 * k) for k in range(1, self.rng.randrange(2, 5))])
        if self.rng.random() < 0.4:
            self.put(lui(8, DATA >> 12), sd(self.rng.choice((1, 5, 7)), 8, 8 * self.rng.randrange(POINTERS)))

    def system_call(self):
        number = self.rng.choice(self.numbers + (5, 64)) if self.rng.random() < 0.95 else 94
        self.put(addi(17, 0, number), lui(11, DATA >> 12), addi(12, 0, 8), addi(10, 0, self.rng.choice((0, 1, 9))), ECALL)
        if self.rng.random() < 0.05:
            self.put(EBREAK)


def hardened_rows():
    """The small objects of tests/model/forms.py in each form, with the list that they have, and with one where they have none."""
    for row in ROWS + STORING + LISTING:
        for form in FORMS:
            source = Source(small_object(row))
            yield Hardening(source, row.entry, form, row.policy_text()).built
            if row.calls is None:
                yield Hardening(source, row.entry, form, row._replace(calls=(63, 64, 93)).policy_text()).built


def hardened_draws(rng, count):
    """Drawn objects in each form, with and without a list."""
    for _ in range(count):
        calls = rng.choice(LISTS)
        source = Source(Writing(rng, tuple(calls)).object().file())
        for form in FORMS:
            yield Hardening(source, "main", form, policy_text()).built
            yield Hardening(source, "main", form, policy_text(calls)).built


def drawn_programs(rng, count):
    """Programs that are drawn unit by unit."""
    for _ in range(count):
        yield drawn.program(rng, rng.choice((1, 2)), rng.choice((1, 2)))


def changed_programs(rng, count):
    """Those of so many programs with a change that are accepted all the same."""
    for built in drawn_programs(rng, count):
        changed = drawn.changed(rng, built)
        if verdict(changed.version, changed.words, changed.graph) == "accepted":
            yield changed


def based():
    """The program of faults.py without a fault, for each version of images and of graphs, with and without lists."""
    for version, graph in product((1, 2), (1, 2)):
        yield from (base(version, graph, calls) for calls in (None, *LISTS))


def pairs(seed, many):
    """Accepted pairs, each with the sort that it is of: so many times what is drawn by default."""
    rng = random.Random(seed)
    yield from (("with each kind of line", built) for built in based())
    yield from (("hardened small objects", built) for built in hardened_rows())
    yield from (("hardened drawn objects", built) for built in hardened_draws(rng, 100 * many))
    yield from (("programs drawn unit by unit", built) for built in drawn_programs(rng, 600 * many))
    yield from (("such with a change", built) for built in changed_programs(rng, 1200 * many))


def cases(name, built, runs=4):
    """The runs of a pair: of one hart or of several, half of them from an ordinary start."""
    for k in range(runs):
        seed = "%s, run %d" % (name, k)
        harts = random.Random(seed).randrange(1, 9) if built.version == 2 and k else 1
        yield Case(built, seed, harts, 300 * (1 + harts // 3), k % 2 == 1)


def deep_cases():
    """Runs that take all slots of the shadow stack, undisturbed and from an arbitrary start."""
    for version in 1, 2:
        yield Case(small(call("main"), version=version), "deep, version %d" % version, 1, DEEP, version == 2)
