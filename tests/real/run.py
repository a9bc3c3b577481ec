#!/usr/bin/env python3
"""Compiles the C programs of this folder, hardens, verifies, runs and compares them, and lets the planted fault be used.

    python3 tests/real/run.py [--program PATH] [--keep FOLDER]

Each program is compiled by gcc and by clang, for rv64im and for rv64i (where tests/real/arithmetic.c has the products and
quotients), with -fpic and without, at -O0, -O1, -O2, -O3 and -Os: 40 builds of each. What it puts and its status must be those
of the same files compiled for the host, also under qemu-riscv64 (the plain program, and the hardened image) and in the machine;
the steps of the hardened image must be those that qemu counts, and `compare` must find no difference. Each build is hardened in
each form that the program has, its files joined by `ld -r` or by `link`, without a list of system calls or under that of those that it
makes. Of the four combinations of joining and list a build and a form have one, in turn: every one is met with each program,
form, processor, compiler and -fpic, at one of the levels at least, and at each level with each form, processor, compiler and
-fpic, by one of the programs at least; the other three of each build and form are left out. Masks for several stores are in all
of them: there is no way to leave them out.

Without -fpic more is asked. At -O2 for rv64im, of all forms joined by `ld -r` without a list: with separate labels for calls and
jumps a computed transfer may reach no more than without. At -O2 and -Os, in the form `plain`: under the list as many units are
begun, and what a program needs and the list lacks halts it. At -O0 and -O2: `link` must come to the code (but for a word behind
each section, of which `ld -r` makes one), classes, sites and steps of `ld -r` and `rewrite`. `visitors` is attacked twice in each
case: the plain program must open the door, the hardened one must end in the named handler. One line a build has the steps and the
bytes of code, plain and hardened. Then objects that are refused must be refused as docs/COMPILING.md says, images that qemu's user
mode does not confine must end as docs/MACHINE.md says, and `clerks` is hardened for several harts, run under turns, and attacked
by one hart from another (tests/real/harts.py).

The program is crates/rvcfi/out/rvcfi where none is named, as `rt ci` or `rt run` leaves it. It needs Python 3.9, Linux and
what docs/COMPILING.md lists. Where a tool is missing, what it is for is told as not run. The last line counts what was
asked, and the status is 1 where one failed.
"""

import concurrent.futures
import hashlib
import os
import signal
import sys
import tempfile
from pathlib import Path
from typing import NamedTuple

sys.dont_write_bytecode = True
sys.path.insert(0, str(Path(__file__).resolve().parents[2]))

from tests.real import beyond, harts, pitfalls, refusals
from tests.real.attack import ATTACKS
from tests.shared import programs
from tests.shared.command import Words
from tests.shared.forms import FORMS, is_apart
from tests.shared.programs import LEVELS, PROGRAMS, Hardened, Linked
from tools.sysroot import compilers
from tools.sysroot.compilers import Missing

DOOR = b"the door is open\n", 42
HANDLERS = {"__cfi_bad_target": 0x40000000, "__cfi_bad_return": 0x40000004}

IN_FORMS = "-O2", "rv64im"
SYSTEM_CALLS = 4  # in start.s
LISTED = "-O2", "-Os"
LINKED = [("-O0", "rv64im"), ("-O2", "rv64im"), ("-O2", "rv64i")]

# what each attack on the hardened program comes to: its handler, and why the object's own run leaves its graph
STOPPED = {"pointer": ("__cfi_bad_target", b"untame graph"), "return": ("__cfi_bad_return", b"untame return")}


class Row(NamedTuple):
    """A form, by what the files are joined, and whether system calls are listed."""
    form: str
    join: str
    listed: bool

    def __str__(self):
        return "%s by %s%s" % (self.form, self.join, ", listed" * self.listed)


FIRST = Row("plain", "ld -r", False)
WAYS = [(join, listed) for listed in (False, True) for join in ("ld -r", "link")]


class Case:
    """A program of one compiler and one level, with what was asked of it."""

    def __init__(self, compiler, level, program):
        self.compiler, self.level, self.program = compiler, level, program
        self.passed, self.lines = 0, []

    def words(self):
        return self.program.name, self.compiler.name, self.compiler.processor, self.level

    def name(self, folder):
        """The path of its files, without their ends."""
        program, *words = self.words()
        return os.path.join(folder, "%s_%s%s_%s" % (*words, program))

    def tell(self, what, got, want):
        if got == want:
            self.passed += 1
        else:
            self.lines.append("FAILED %s %s %s %s: %s: %.200r, not %.200r" % (*self.words(), what, got, want))

    def rows(self):
        """In which forms and how it is hardened: each form in a way that turns with the program, the level, the compiler and the
        processor; and what is compared."""
        shared, processor = self.compiler.name.endswith("pic"), self.compiler.processor
        turn = PROGRAMS.index(self.program) + LEVELS.index(self.level) + self.compiler.name.startswith("clang")
        turn += 2 * (processor == "rv64im") + 3 * shared
        rows = [Row(form, *WAYS[(turn + number) % len(WAYS)]) for number, form in enumerate(FORMS)]
        if not shared:
            rows += [FIRST, FIRST._replace(listed=True)] * (self.level in LISTED)
            rows += [FIRST, FIRST._replace(join="link")] * ((self.level, processor) in LINKED)
            rows += [FIRST._replace(form=form) for form in FORMS] * ((self.level, processor) == IN_FORMS)
        return list(dict.fromkeys(rows))

    def try_all(self, tool, folder, wanted):
        plain = programs.linked(programs.joined(self.compiler, self.level, self.program, folder))
        got, steps = programs.counted(plain, self.program.input)
        self.tell("plain under qemu", got, wanted)
        if self.program.name == "visitors":
            for attack in STOPPED:
                given = ATTACKS[attack](programs.symbol(plain, "open_door")[1])
                self.tell("not hardened, " + attack, programs.under_qemu(plain, given), DOOR)
        made = {row: self.try_row(tool, folder, plain, row, wanted) for row in self.rows()}
        if None not in made.values():
            self.try_compared(tool, folder, made)
            row = self.rows()[0]
            sizes, more = (programs.code_size(plain), made[row].code_size()), made[row].steps
            self.lines.append("%-11s %-8s %-6s %-3s  %-22s  steps %7d to %7d, %.2f times  code %5d to %5d bytes, %.2f times" % (
                *self.words(), str(row), steps, more, more / steps, *sizes, sizes[1] / sizes[0]))

    def hardened(self, tool, folder, plain, row):
        policy = programs.policy_file(programs.CALLS, self.name(folder) + "_listed.policy") if row.listed else "none"
        if row.join == "ld -r":
            return Hardened(tool, plain.replace(".elf", "_joined.o"), row.form, policy)
        name = self.name(folder) + ("" if row.form == "plain" else "_" + row.form)
        return Linked(tool, programs.objects_of(self.compiler, self.level, self.program, folder), name, row.form, policy)

    def try_row(self, tool, folder, plain, row, wanted):
        """Hardens the program, runs it, and attacks it where it can be."""
        made = self.hardened(tool, folder, plain, row)
        name = str(row)
        self.tell(name, made.told[0], 0)
        if made.told[0]:
            self.lines.append(made.told[1].decode())
            return None
        self.tell(name + ", verify", made.verified(), (0, b"accepted\n"))
        self.try_run(made, row, wanted)
        if self.program.name == "visitors":
            for attack in STOPPED:
                self.try_attack(made, row, attack, *STOPPED[attack])
        return made

    def try_run(self, made, row, wanted):
        given, name = self.program.input, str(row)
        _, output, report = made.run(given)
        got, counted = programs.counted(programs.for_qemu(made.image), given)
        made.steps = int(report["steps"][0])
        self.tell(name + ", under qemu", got, wanted)
        self.tell(name + ", run", (output, stop_of(report)), (wanted[0], ["exit", str(wanted[1])]))
        self.tell(name + ", steps", made.steps, counted)
        status, compared = made.compared(given)
        self.tell(name + ", compare", (status, compared.split()[:1]), (0, [b"same"]))

    def try_attack(self, made, row, what, handler, untame):
        """The input goes to a function that the program calls only for who knows the word."""
        given, name = ATTACKS[what](made.gate("open_door")), str(row) + ", " + what
        status, output, report = made.run(given)
        self.tell(name, (status, output, stop_of(report)), (10, b"", ["handler", handler]))
        got, addresses = programs.traced(programs.for_qemu(made.image), given)
        self.tell(name + ", under qemu", got, (b"", -signal.SIGTRAP))
        self.tell(name + ", its last address", addresses[-1], HANDLERS[handler])
        status, compared = made.compared(given)
        self.tell(name + ", compare", (status, compared[:len(untame)]), (13, untame))

    def try_compared(self, tool, folder, made):
        """What a list, `link` and separate labels change."""
        if FIRST._replace(listed=True) in made and FIRST in made:
            self.try_listed(made[FIRST], made[FIRST._replace(listed=True)])
            self.try_shorter(tool, folder, made[FIRST])
        if FIRST._replace(join="link") in made and FIRST in made:
            self.try_link(made[FIRST._replace(join="link")], made[FIRST])
        for form in filter(is_apart, FORMS):
            if FIRST._replace(form=form) in made and FIRST in made:
                self.try_targets(made[FIRST], made[FIRST._replace(form=form)], form)

    def try_listed(self, first, listed):
        """A list of the system calls that are made."""
        counts = [each.run(self.program.input)[2]["walk"] for each in (first, listed)]
        self.tell("list, units begun", counts[1], counts[0])
        self.tell("list, code", listed.code_size(), first.code_size() + 4 * SYSTEM_CALLS * (1 + 2 * len(programs.CALLS)))

    def try_shorter(self, tool, folder, first):
        """A list without the call that writes."""
        halted = Hardened(tool, first.object, policy=programs.policy_file((63, 93), self.name(folder) + "_silent.policy"))
        self.tell("a shorter list, verify", halted.verified(), (0, b"accepted\n"))
        status, output, report = halted.run(self.program.input)
        self.tell("a shorter list", (status, output, stop_of(report)), (10, b"", ["handler", "__cfi_bad_target"]))
        self.tell("a shorter list, compare", halted.compared(self.program.input)[1][:12], b"untame call ")

    def try_link(self, linked, first):
        """The same code as `ld -r` and `rewrite` make of the objects, but for a word behind each section, in as many steps."""
        more = sum(map(programs.sections_of_code, linked.objects)) - programs.sections_of_code(first.object)
        found, known = (each.told[1].split() for each in (linked, first))
        self.tell("link, code as ld -r and rewrite", linked.code_size(), first.code_size() + 4 * more)
        self.tell("link, as ld -r and rewrite", (found[5:], linked.steps), (known[5:], first.steps))

    def try_targets(self, first, other, form):
        """What each computed transfer may reach where calls and jumps have classes of their own: what it may in the form `plain`, or
        less."""
        pairs = list(zip(first.classes()[1], other.classes()[1]))
        same = [kind for (kind, targets), (other_kind, others) in pairs if kind == other_kind and targets >= others]
        self.tell(form + ", sites", (len(first.classes()[1]), same), (len(other.classes()[1]), [kind for (kind, _), _ in pairs]))


def stop_of(report):
    """How a run stopped; of several harts hart 0 alone has run."""
    stop = report["stop"]
    return stop[2:] if stop[:2] == ["hart", "0"] else stop


def cases_of(found, folder):
    """The cases, each file of the library compiled once before they are run beside each other."""
    kinds = [(kind, level) for each in found for kind in (each, programs.shared(each)) for level in LEVELS]
    for compiler, level in kinds:
        for name in programs.LIBRARY[compiler.processor]:
            programs.compiled(compiler, level, name, folder)
    return [Case(compiler, level, program) for program in PROGRAMS for compiler, level in kinds]


def try_cases(found, tool, folder):
    wanted = {program.name: programs.on_host(program, folder) for program in PROGRAMS}
    digest = next(program for program in PROGRAMS if program.name == "digest")
    cases = cases_of(found, folder)
    cases[0].tell("the host's hash", wanted["digest"], (hashlib.sha256(digest.input).hexdigest().encode() + b"\n", 0))
    with concurrent.futures.ThreadPoolExecutor(os.cpu_count()) as pool:
        list(pool.map(lambda case: case.try_all(tool, folder, wanted[case.program.name]), cases))
    return cases


def try_all(found, tool, folder):
    """The lines of all cases and of the refusals, and how many of what was asked passed."""
    cases = try_cases(found, tool, folder)
    failed, rows = refusals.tried(tool, folder, [each for each in found if each.processor == "rv64im"])
    lines = [line for case in cases for line in case.lines]
    return lines + failed, sum(case.passed for case in cases) + rows - len(failed)


def try_more(found, tool, folder):
    """The failures of what goes wrong on the way from C, of what qemu does beyond the machine and of the program for several
    harts, and how much passed."""
    parts = [pitfalls.tried(tool, folder, found), beyond.tried(tool, folder), harts.tried(tool, folder, found)]
    return [line for failed, _ in parts for line in failed], sum(asked - len(failed) for failed, asked in parts)


def main():
    words = Words(__doc__)
    words.add_argument("--keep", metavar="FOLDER", help="leaves all files in this new folder")
    options = words.parse_args()
    if options.keep and os.path.exists(options.keep):
        words.error("%s is there already" % options.keep)
    try:
        compilers.tool("qemu-riscv64", "qemu-riscv64-static")
        compilers.tool("gcc", "cc", "clang")
        compilers.binutils("ld")
    except Missing as what:
        print("not run, since there is no %s: tests/real/run.py" % what)
        return 0
    found = programs.compilers_here("not run, since there is no %s: the programs of %s", programs.PROCESSORS)
    with tempfile.TemporaryDirectory() as scratch:
        folder = options.keep or scratch
        os.makedirs(folder, exist_ok=True)
        lines, passed = try_all(found, options.program, folder) if found else ([], 0)
        more, also = try_more(found, options.program, folder) if found else ([], 0)
    lines, passed = lines + more, passed + also
    print("\n".join(lines))
    failed = sum(line.startswith("FAILED") for line in lines)
    print("%d passed, %d failed" % (passed, failed))
    return 1 if failed else 0


if __name__ == "__main__":
    sys.exit(main())
