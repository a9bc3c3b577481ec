#!/usr/bin/env python3
"""Makes a C program of several hundred functions from a grammar, and measures the commands on it in each form and under lists.

    python3 bench/larger.py [--program PATH] [--runs N] [--functions N] [--seed N] [--keep FOLDER]

README.md beside this file says what is measured and what it needs.
"""

import argparse
import os
import random
import sys
import tempfile
from pathlib import Path

sys.dont_write_bytecode = True
sys.path.insert(0, str(Path(__file__).resolve().parents[1]))

from bench.costs import EIGHT
from bench.verify import best_time, found, peak_memory
from tests.shared import programs
from tests.shared.forms import FORMS
from tests.shared.programs import CALLS, Linked, policy_file
from tools.sysroot import compilers

TIERS, ROW = 10, 8  # functions call those of the next tier alone; so many of them are in each table of pointers
OPERATORS = ["+", "-", "*", "&", "|", "^"]
INPUT, HOST = bytes(7 * k % 256 for k in range(1000)), "gcc"
HEAD = """#include "system.h"
#include "text.h"

typedef unsigned long word;
extern word cells[256];
"""
MAIN = """
int main(void)
{
    unsigned char given[8];
    word sum = 1;
    long count;
    while ((count = read_input((char *)given, sizeof given)) > 0)
        for (long at = 0; at < count; at++)
            sum = sum * 31 + rows0[given[at] & %d](sum, given[at]);
    put_hex((unsigned)(sum >> 32));
    put_hex((unsigned)sum);
    put_text("\\n");
    return (int)(sum & 63);
}
"""


class Grammar:
    """Functions of two numbers: sums, loops, branches, tables of a `switch`, stores beside each other, and calls of the next tier."""

    def __init__(self, seed, functions):
        self.draw, self.per_tier = random.Random(seed), max(ROW, functions // TIERS)

    def name(self, tier, number):
        return "f%d_%d" % (tier, number)

    def value(self, depth=2):
        kind = self.draw.randrange(6)
        if depth == 0 or kind < 2:
            return self.draw.choice(["a", "b", "x", "y", str(self.draw.randrange(1, 4000)), "cells[(a + %d) & 255]" % self.draw.randrange(256)])
        left, right = self.value(depth - 1), self.value(depth - 1)
        if kind == 2:
            return "(%s %s (%s | 1))" % (left, self.draw.choice("/%"), right)
        if kind == 3:
            return "(%s %s %d)" % (left, self.draw.choice(["<<", ">>"]), self.draw.randrange(1, 40))
        return "(%s %s %s)" % (left, self.draw.choice(OPERATORS), right)

    def place(self):
        return self.draw.choice(["x", "y", "x", "y", "cells[(y + %d) & 255]" % self.draw.randrange(256)])

    def statement(self, depth=2):
        kind = self.draw.randrange(9 if depth else 4)
        inner = lambda: " ".join(self.statement(depth - 1) for _ in range(self.draw.randrange(1, 4)))
        if kind < 3:
            return "%s = %s;" % (self.place(), self.value())
        if kind == 3:
            first = self.draw.randrange(248)
            return " ".join("cells[%d] = %s;" % (first + k, self.draw.choice(["a", "x", "y", "b"])) for k in range(self.draw.randrange(2, 6)))
        if kind == 4:
            return "for (word i = 0; i < %d; i++) { %s }" % (self.draw.randrange(2, 5), inner())
        if kind < 7:
            return "if (%s %s %s) { %s } else { %s }" % (self.value(1), self.draw.choice(["<", "==", ">="]), self.value(1), inner(), inner())
        cases = " ".join("case %d: %s break;" % (k, self.statement(0)) for k in range(self.draw.randrange(5, 9)))
        return "switch (%s & 7) { %s default: %s }" % (self.value(1), cases, self.statement(0))

    def call(self, tier):
        if tier + 1 == TIERS:
            return "cells[a & 255] += x;"
        if self.draw.random() < 0.4:
            return "x += rows%d[(x ^ b) & %d](y, a);" % (tier + 1, ROW - 1)
        return "x += %s(y, b + %d);" % (self.name(tier + 1, self.draw.randrange(self.per_tier)), self.draw.randrange(9))

    def function(self, tier, number):
        parts = [self.statement() for _ in range(self.draw.randrange(3, 7))]
        parts.insert(self.draw.randrange(len(parts) + 1), self.call(tier))
        if self.draw.random() < 0.15:
            parts.append("if (x & 1) { %s }" % self.call(tier))
        return "word %s(word a, word b)\n{\n    word x = a + b, y = a ^ %d;\n    %s\n    return x ^ y;\n}\n" % (
            self.name(tier, number), self.draw.randrange(1, 4000), "\n    ".join(parts))

    def sources(self):
        """A file a tier, and the one with `main`."""
        names = [[self.name(tier, number) for number in range(self.per_tier)] for tier in range(TIERS)]
        head = [HEAD] + ["word %s(word, word);" % name for row in names for name in row]
        head += ["extern word (*const rows%d[%d])(word, word);" % (tier, ROW) for tier in range(TIERS)]
        for tier in range(TIERS):
            row = "word (*const rows%d[%d])(word, word) = {%s};" % (tier, ROW, ", ".join(names[tier][:ROW]))
            yield "\n".join(head + [row] + [self.function(tier, number) for number in range(self.per_tier)])
        yield "\n".join(head) + "\nword cells[256];" + MAIN % (ROW - 1)


def compiled(folder, sources):
    """The objects of the program, and what the host's build of it puts and ends with."""
    compiler = compilers.gcc()
    objects = [programs.compiled(compiler, "-O2", name, folder) for name in ("start.s", "memory.c", "text.c")]
    hosted = [programs.source(name) for name in ("host.c", "text.c")]
    for number, source in enumerate(sources):
        path = os.path.join(folder, "larger%d" % number)
        with open(path + ".c", "w") as file:
            file.write(source)
        objects.append(path + ".o")
        compilers.must(compiler.command + compiler.options + ["-w", "-O2", "-I" + programs.SOURCES, "-c", path + ".c", "-o", objects[-1]])
        hosted.append(path + ".host.o")
        compilers.must([HOST, "-w", "-O1", "-I" + programs.SOURCES, "-c", path + ".c", "-o", hosted[-1]])
    host = os.path.join(folder, "larger")
    compilers.must([HOST, "-O1", "-o", host, *hosted])
    done = compilers.run([host], INPUT)
    return objects, (done.stdout, done.returncode)


def measure(tool, objects, wanted, folder, form, calls, runs):
    """A row of a form and a list: bytes, steps, milliseconds and memory of each command."""
    policy = "none" if calls is None else policy_file(calls, os.path.join(folder, "list%d" % len(calls)))
    made = Linked(tool, objects, os.path.join(folder, form), form, policy)
    if made.told[0] or made.verified()[0]:
        sys.exit("%s: %s" % (form, made.told[1].decode()))
    status, output, report = made.run(INPUT)
    stop = report["stop"][-2:]
    if (output, stop) != (wanted[0], ["exit", str(wanted[1])]):
        sys.exit("%s: %r %s, and on the host %r" % (form, output, stop, wanted))
    given = made.input_file(INPUT)
    commands = [
        [tool, "link", form, "_start", policy, made.image, made.graph, made.map, *objects], [tool, "verify", made.image, made.graph],
        [tool, "run", made.image, made.graph, "none", given, programs.STEPS],
        [tool, "compare-link", "_start", policy, made.image, made.map, given, programs.STEPS, *objects]]
    times = [best_time(command, runs).processor for command in commands]
    peaks = [peak_memory(command) // 1024 for command in commands]
    words = made.told[1].split()
    return made.code_size(), int(words[6]), int(words[8]), os.path.getsize(made.graph), int(report["steps"][0]), times, peaks


def main():
    words = argparse.ArgumentParser(description=__doc__, formatter_class=argparse.RawDescriptionHelpFormatter)
    words.add_argument("--program", help="the rvcfi that is timed; it is built where none is named and there is none")
    words.add_argument("--runs", type=int, default=5)
    words.add_argument("--functions", type=int, default=160)
    words.add_argument("--seed", type=int, default=1)
    words.add_argument("--without-lists", action="store_true", help="for a program that knows none")
    words.add_argument("--keep", help="a folder in which the files stay")
    options = words.parse_args()
    tool = found(options.program)
    with tempfile.TemporaryDirectory() as work:
        folder = options.keep or work
        os.makedirs(folder, exist_ok=True)
        objects, wanted = compiled(folder, Grammar(options.seed, options.functions).sources())
        print("objects of %d bytes, code of %d, not hardened" % (
            sum(map(os.path.getsize, objects)), sum(programs.code_size(each) for each in objects)))
        print("| form | list | code | classes | sites | graph | steps | `link` | `verify` | `run` | `compare-link` | peak KiB |")
        print("|---" * 12 + "|")
        rows = [(form, None) for form in FORMS] + ([] if options.without_lists else [("plain", CALLS), ("plain", EIGHT), ("harts-split", CALLS)])
        for form, calls in rows:
            code, classes, sites, graph, steps, times, peaks = measure(tool, objects, wanted, folder, form, calls, options.runs)
            print("| `%s` | %s | {:,} | %d | %d | {:,} | {:,} | %s | %s |".format(code, graph, steps) % (
                form, "" if calls is None else len(calls), classes, sites, " | ".join("%.1f" % each for each in times),
                " / ".join("{:,}".format(each) for each in peaks)), flush=True)


if __name__ == "__main__":
    main()
