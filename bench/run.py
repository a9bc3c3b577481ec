#!/usr/bin/env python3
"""Times `rvcfi run` on a loop and on compiled programs, beside a plain interpreter of the same machine, and prints their ratios;
then runs of one hart and of eight beside an image of version 1, and the memory that a page of data takes which a program stores to.

    python3 bench/run.py [--program PATH] [--steps N] [--runs N]

README.md beside this file says what is measured and how the program is built.
"""

import hashlib
import os
import random
import shutil
import struct
import subprocess
import sys
import tempfile
import time
from pathlib import Path
from typing import Callable, NamedTuple

sys.dont_write_bytecode = True
sys.path.insert(0, str(Path(__file__).resolve().parents[1]))

from bench.verify import peak_memory
from tests.model.program import Program
from tests.shared import programs
from tests.shared.command import Words
from tests.shared.instructions import ECALL, addi, branch, i_form, jal, r_form, s_form, u_form
from tests.shared.units import CODE, OPENING, PAGE, UNITS, image_file, prologue
from tools.simulator.machine import quotient, signed
from tools.sysroot import compilers

HERE = os.path.dirname(os.path.abspath(__file__))
MANY, FEW = u_form(0x37, 5, 0x10000), addi(5, 0, 100)  # the loop's count, put into x5
USAGE, LIMIT = 2, 12  # statuses of rvcfi
MOST_STEPS = 1000000000
MOST_PAGES = 2001
HARTS, HART_STEPS = 8, 1000000  # of the runs of several harts
LEVEL = "-O2"
ROW = "%-9s %10s   %9s %9s   %9s %9s   %6s %6s   %s"


class Compiled(NamedTuple):
    """A C program: its name, the files of tests/real that it needs besides, its input, what it has to put, and the least ratio
    of its steps per second to the interpreter's that is aimed at."""
    name: str
    files: list
    input: bytes
    is_right: Callable
    aim: float


class Case(NamedTuple):
    """What is timed: a name, the files of the image and the input, how many steps at most, the status of rvcfi, and the aim."""
    name: str
    paths: list
    given: str
    steps: int
    status: int
    aim: float


def text(length):
    """Words with a space between, drawn from a seed, the first ones of a list more often."""
    rng = random.Random(5)
    words = ["".join(rng.choice("etaoinshrdlu") for _ in range(rng.randrange(2, 9))) for _ in range(700)]
    drawn = " ".join(words[min(int(rng.expovariate(0.01)), 699)] for _ in range(length // 4))
    return drawn[:length].encode()


def unpacked(packed):
    """What programs/packer.c packed."""
    plain, at = bytearray(), 0
    while at < len(packed):
        flags, at = packed[at], at + 1
        for flag in range(8):
            if at == len(packed):
                break
            if flags >> flag & 1:
                back, count, at = packed[at] | packed[at + 1] << 8, packed[at + 2] + 3, at + 3
                for _ in range(count):
                    plain.append(plain[-back])
            else:
                plain.append(packed[at])
                at += 1
    return bytes(plain)


def remainder(a, b):
    return a - quotient(a, b) * b


def powers():
    """What programs/powers.c puts."""
    state, quotients, prime = 1, 0, 1000000007
    for k in range(100000):
        number, divisor = signed(state >> 13, 32), k % 255 - 127
        product = (state ^ 0x9E3779B97F4A7C15) * (0xD6E8FEB86659FD93 + k)
        state = (product ^ product >> 64) % 2**64
        if divisor:
            small = quotient(number, divisor) + remainder(number, divisor)
            quotients += small + remainder(quotient(signed(state, 64), divisor), 1000)
    inverses = sum(pow(k, prime - 2, prime) for k in range(1, 10001))
    return b"%016x\n%d\n%d\n" % (state, inverses, quotients)


TEXT = text(100000)
COMPILED = [
    Compiled("hasher", ["sha256.c"], TEXT, lambda put: put == hashlib.sha256(TEXT).hexdigest().encode() + b"\n", 1.0),
    Compiled("packer", [], TEXT, lambda put: len(put) < len(TEXT) and unpacked(put) == TEXT, 1.0),
    Compiled("filler", [], b"", lambda put: put == b"%08x\n" % (2 * sum(range(60))), 0.7),
    Compiled("powers", [], b"", lambda put: put == powers(), 1.0),
]


def loop(count):
    """An image that counts x5 down to 0 and then exits with 7, and its graph."""
    again = UNITS[1] + 4
    words = prologue(UNITS[1]) + [count, addi(5, 5, -1), branch(0, 5, 0, 8), jal(0, again + 8, again)]
    words += [addi(10, 0, 7), addi(17, 0, 93), ECALL, jal(0, UNITS[1] + 28, CODE)]
    code = struct.pack("<%dI" % len(words), *words)
    lines = ["rvcfi-graph 1", "code %08x %08x" % (CODE, len(code)), "call %08x %08x" % (OPENING, UNITS[1]),
             "edge %08x %08x" % (again + 4, again), "end", ""]
    return image_file(code, b""), "\n".join(lines).encode()


def toucher(pages):
    """An image that stores a byte into each of at most 2,047 pages of data and then exits with 7, and its graph."""
    again = UNITS[1] + 12
    words = prologue(UNITS[1]) + [u_form(0x37, 5, 0x100), u_form(0x37, 7, 1), addi(6, 0, pages)]
    words += [addi(31, 5, 0), i_form(0x13, 1, 31, 31, 36), i_form(0x13, 5, 31, 31, 36), s_form(0, 31, 6, 0)]
    words += [r_form(0x33, 0, 0, 5, 5, 7), addi(6, 6, -1), branch(0, 6, 0, 8), jal(0, again + 28, again)]
    words += [addi(10, 0, 7), addi(17, 0, 93), ECALL, jal(0, UNITS[1] + 56, CODE)]
    code = struct.pack("<%dI" % len(words), *words)
    lines = ["rvcfi-graph 1", "code %08x %08x" % (CODE, len(code)), "call %08x %08x" % (OPENING, UNITS[1]),
             "edge %08x %08x" % (again + 24, again), "end", ""]
    return image_file(code, b""), "\n".join(lines).encode()


def looping(version):
    """A program in which each hart counts x5 down, three instructions a turn as `loop`."""
    p = Program(version)
    p.label("main")
    p.plain(MANY)
    p.label("again")
    p.plain(addi(5, 5, -1))
    p.branch(0, 5, 0, "again")
    p.plain(addi(10, 0, 7), addi(17, 0, 93), ECALL)
    p.stop()
    return p.built("main")


def working(version):
    """A program in which each hart stores, loads and calls in each turn, 19 instructions with those of the callee."""
    p = Program(version)
    p.label("main")
    p.plain(MANY)
    p.label("again")
    p.plain(addi(5, 5, -1))
    p.store(3, 5, -8, 2)
    p.plain(i_form(0x03, 3, 6, 2, -8))
    p.call("callee")
    p.near(1, 5, 0, "again")
    p.stop()
    p.label("callee")
    p.plain(addi(7, 7, 1))
    p.returns()
    p.stop()
    return p.built("main")


def turn_scripts():
    """Names, versions of the image and scripts: of version 1, and of version 2 one hart, eight with one long turn each, and eight
    that alternate at each step."""
    long = ["turn %d %d" % (hart, HART_STEPS // HARTS) for hart in range(HARTS)]
    short = ["turn %d 1" % hart for hart in range(HARTS)] * (HART_STEPS // HARTS)
    parts = ("one hart", 1, []), ("long turns", HARTS, long), ("of a step", HARTS, short)
    scripts = [(name, 2, "\n".join(["rvcfi-script 2", "harts %d" % harts, *lines, "end", ""])) for name, harts, lines in parts]
    return [("version 1", 1, None)] + scripts


def write(path, content):
    with open(path, "wb") as out:
        out.write(content)
    return path


def write_pair(folder, name, pair):
    return [write(os.path.join(folder, name + end), content) for end, content in zip((".img", ".graph"), pair)]


def hardened(tool, compiler, program, folder):
    """Compiles and hardens a program of the folder programs, and answers the paths of its image and graph."""
    objects = [programs.compiled(compiler, LEVEL, name, folder) for name in programs.LIBRARY[compiler.processor] + program.files]
    own = os.path.join(folder, program.name + ".o")
    source = os.path.join(HERE, "programs", program.name + ".c")
    compilers.must(compiler.command + compiler.options + [LEVEL, "-I", programs.SOURCES, "-c", source, "-o", own])
    joined = os.path.join(folder, program.name + "_joined.o")
    compilers.must(compiler.join + ["-o", joined, own] + objects)
    made = programs.Hardened(tool, joined)
    if made.told[0] or made.verified() != (0, b"accepted\n"):
        sys.exit("%s: %s" % (program.name, made.told[1].decode()))
    return [made.image, made.graph]


def called(command, statuses):
    """The wall time of a command in seconds, what its program put, and its lines `stop` and `steps`."""
    begun = time.perf_counter()
    done = subprocess.run(command, stdout=subprocess.PIPE, stderr=subprocess.STDOUT)
    wall = time.perf_counter() - begun
    if done.returncode == USAGE and done.stdout.startswith(b"usage:"):
        sys.exit("%s has no command run: it answers `%s`. %s" % (command[0], done.stdout.decode().strip(), how_to_build()))
    if done.returncode not in statuses or not done.stdout.startswith(b"output "):
        sys.exit("%s: status %d, printed %r" % (" ".join(command), done.returncode, done.stdout[:1000]))
    first, rest = done.stdout.split(b"\n", 1)
    length = int(first.split()[1])
    return wall, rest[:length], rest[length + 1:].decode().splitlines()[:2]


def how_to_build():
    return "Build it with `cd crates/rvcfi && rt run`, or name another with --program."


def build_interpreter(folder):
    if not shutil.which("rustc"):
        sys.exit("There is no rustc, which builds the interpreter. On Debian, `apt-get install rustc` installs it.")
    built = os.path.join(folder, "interpreter")
    subprocess.run(["rustc", "-O", "--edition", "2021", "-o", built, os.path.join(HERE, "interpreter.rs")], check=True)
    return built


class Pair:
    """The two programs that are timed."""

    def __init__(self, tool, plain):
        self.tool, self.plain = tool, plain

    def commands(self, case, steps, status):
        """The two commands that run a case for so many steps, each with the statuses that it may end with."""
        return (([self.tool, "run"] + case.paths + ["none", case.given, str(steps)], (status,)),
                ([self.plain, case.paths[0], case.given, str(steps)], (0,)))

    def same(self, case, is_right):
        """Runs both once and answers the steps; they have to put the same, stop alike and count the same steps."""
        ends = [called(*command)[1:] for command in self.commands(case, case.steps, case.status)]
        if ends[0] != ends[1]:
            sys.exit("%s: rvcfi run ends with %r, the interpreter with %r" % (case.name, ends[0][1], ends[1][1]))
        output, (stop, steps) = ends[0]
        if not is_right(output, stop):
            sys.exit("%s: ended with %s after %d bytes of output" % (case.name, stop, len(output)))
        return int(steps.split()[1])

    def times(self, case, runs):
        """The least wall time of each of the two, of all steps and of none, the runs taken in turn."""
        least = [float("inf")] * 4
        for _ in range(runs):
            both = self.commands(case, case.steps, case.status) + self.commands(case, 0, LIMIT)
            for k, command in enumerate(both):
                least[k] = min(least[k], called(*command)[0])
        return least


def compiled_cases(tool, folder):
    """The cases of the compiled programs, each with the test of what it puts."""
    try:
        compiler = compilers.gcc()
    except compilers.Missing as what:
        print("not measured, since there is no %s: the compiled programs" % what)
        return []
    cases = []
    for program in COMPILED:
        given = write(os.path.join(folder, program.name + ".input"), program.input)
        case = Case(program.name, hardened(tool, compiler, program, folder), given, MOST_STEPS, 0, program.aim)
        cases.append((case, lambda output, stop, is_right=program.is_right: stop == "stop exit 0" and is_right(output)))
    return cases


def hart_commands(command, folder, name, build):
    """The commands that run a program for several harts, by each script for all steps and for none."""
    commands = []
    for turns, version, text in turn_scripts():
        built = build(version)
        paths = write_pair(folder, "%s_%d" % (name, version), (built.image, built.graph))
        script = write(os.path.join(folder, turns), text.encode()) if text else "none"
        commands += [[*command, *paths, script, "none", str(steps)] for steps in (HART_STEPS, 0)]
    return commands


def print_harts(tool, folder, runs):
    """The steps a second of one hart and of eight, without the start and the reading of the script, beside those of the same
    program in an image of version 1."""
    for name, build in (("loop", looping), ("worker", working)):
        commands = hart_commands([tool, "run"], folder, name, build)
        least = [float("inf")] * len(commands)
        for _ in range(runs):
            least = [min(before, called(command, (LIMIT,))[0]) for before, command in zip(least, commands)]
        rates = [HART_STEPS / (full - start) for full, start in zip(least[::2], least[1::2])]
        for k, (turns, _, _) in enumerate(turn_scripts()):
            print("%-9s %-10s %10d %9.2f ms, %9.2f ms of them the start %9.1f M/s, %.2f of version 1's" % (
                name, turns, HART_STEPS, 1000 * least[2 * k], 1000 * least[2 * k + 1], rates[k] / 1e6, rates[k] / rates[0]))


def print_memory(tool, folder):
    """The peak memory of runs that store to one page and to many, and what each page more takes."""
    peaks = []
    for pages in (1, MOST_PAGES):
        paths = write_pair(folder, "toucher%d" % pages, toucher(pages))
        command = [tool, "run"] + paths + ["none", "none", "100000"]
        if called(command, (0,))[2] != ["stop exit 7", "steps %d" % (10 + 3 + 8 * pages - 1 + 3)]:
            sys.exit("the program that stores to %d pages took another end or number of steps" % pages)
        peaks.append(peak_memory(command))
    each = (peaks[1] - peaks[0]) / (MOST_PAGES - 1)
    print("\npeak memory of a run that stores to 1 page: %d KiB, to %d pages: %d KiB; %.0f bytes for each page more, %.3f of a page" % (
        peaks[0] // 1024, MOST_PAGES, peaks[1] // 1024, each, each / PAGE))


def print_row(case, steps, least):
    rates = [steps / seconds for seconds in least[:2]]
    alone = [steps / (full - start) if full > start else float("nan") for full, start in zip(least[:2], least[2:])]
    ratios = rates[0] / rates[1], alone[0] / alone[1]
    print(ROW % (case.name, steps, "%.2f" % (1000 * least[0]), "%.2f" % (1000 * least[1]), "%.1f" % (rates[0] / 1e6),
                 "%.1f" % (rates[1] / 1e6), "%.2f" % ratios[0], "%.2f" % ratios[1],
                 "" if ratios[0] >= case.aim else "below %.2f" % case.aim))


def main():
    parser = Words(__doc__)
    parser.add_argument("--steps", type=int, default=5000000, help="of the loop; at most 800000000, where it still goes on")
    parser.add_argument("--runs", type=int, default=5)
    options = parser.parse_args()
    if not 0 < options.steps <= 800000000 or options.runs < 1:
        parser.error("--steps is from 1 to 800000000, --runs at least 1")
    tool = options.program
    with tempfile.TemporaryDirectory() as folder:
        pair = Pair(tool, build_interpreter(folder))
        # 10 steps of the opening, 1 for the count, 2 or 3 for each turn of the loop, 3 to the exit
        short = Case("short", write_pair(folder, "short", loop(FEW)), "none", 1000, 0, 0)
        if pair.same(short, lambda output, stop: stop == "stop exit 7") != 10 + 1 + 3 * 100 - 1 + 3:
            sys.exit("the short loop took another number of steps than 313")
        long = Case("loop", write_pair(folder, "long", loop(MANY)), "none", options.steps, LIMIT, 1.0)
        cases = [(long, lambda output, stop: stop == "stop limit")] + compiled_cases(tool, folder)
        print(ROW % ("", "steps", "run ms", "other ms", "run M/s", "other M/s", "ratio", "alone", ""))
        for case, is_right in cases:
            print_row(case, pair.same(case, is_right), pair.times(case, options.runs))
        print()
        print_harts(tool, folder, options.runs)
        print_memory(tool, folder)


if __name__ == "__main__":
    main()
