#!/usr/bin/env python3
"""Measures what strangers' files cost at most: `python3 bench/limits.py [--program PATH]`.

Printed is the most memory that `rvcfi verify` takes of the largest files, an image with all the code and data that there may be and a
graph of 2^26 bytes, with as many classes as there are labels; and what `rvcfi run` takes for a byte of a script, by scripts of two sizes, and for
a step that calls the system, by runs of two lengths of a program that does nothing else.
"""

import os
import struct
import sys
import tempfile
from pathlib import Path

sys.dont_write_bytecode = True
sys.path.insert(0, str(Path(__file__).resolve().parents[1]))

from bench.run import write, write_pair
from bench.verify import peak_memory
from tests.model.program import Program
from tests.shared.command import Words
from tests.shared.instructions import ECALL, addi
from tests.shared.units import CODE, image_file

MOST_FILE, MOST_CODE, MOST_DATA, MOST_LABEL = 1 << 26, 1 << 20, 1 << 25, 0xFFFFF
LINES = 200000  # of the shorter script
STEPS = 1000000  # of the shorter run


def largest():
    """An image and a graph that are as long as files may be."""
    image = image_file(struct.pack("<I", 0x13) * (MOST_CODE // 4), bytes(MOST_DATA))
    targets = ["%08x" % at for at in range(CODE, CODE + MOST_CODE, 4)]
    few, more = " ".join(targets[:5]), " ".join(targets[:6])
    longer = (MOST_FILE - 50 - MOST_LABEL * len("class 00000 %s\n" % few)) // len(" 00000000")
    lines = ["class %05x %s" % (label, more if label <= longer else few) for label in range(1, MOST_LABEL + 1)]
    return image, "\n".join(["rvcfi-graph 1", "code %08x %08x" % (CODE, MOST_CODE), *lines, "end", ""]).encode()


def calling():
    """A program that calls the system for ever: a write of no bytes."""
    p = Program(1)
    p.label("main")
    p.plain(addi(17, 0, 64), addi(10, 0, 1), addi(12, 0, 0))
    p.label("again")
    p.plain(*[ECALL] * 1000)
    p.jump("again")
    p.stop()
    built = p.built("main")
    return built.image, built.graph


def script(lines):
    """A script that changes a byte of data so many times before the first step: of all forms it takes the most for a byte."""
    return "\n".join(["rvcfi-script 1"] + ["at 0 00010000 00"] * lines + ["end", ""]).encode()


def main():
    program = Words(__doc__).parse_args().program
    with tempfile.TemporaryDirectory() as folder:
        image, graph = largest()
        pair = write_pair(folder, "largest", (image, graph))
        print("verify: %d MB of an image of %d MB and a graph of %d MB" % tuple(
            size // 1000000 for size in (peak_memory([program, "verify", *pair]), len(image), len(graph))))
        pair = write_pair(folder, "calls", calling())
        scripts = [script(lines) for lines in (LINES, 2 * LINES)]
        paths = [write(os.path.join(folder, "script%d" % k), text) for k, text in enumerate(scripts)]
        peaks = [peak_memory([program, "run", *pair, path, "none", "1"]) for path in paths]
        print("run: %.0f bytes for each byte of a script" % ((peaks[1] - peaks[0]) / (len(scripts[1]) - len(scripts[0]))))
        peaks = [peak_memory([program, "run", *pair, "none", "none", str(steps)]) for steps in (STEPS, 2 * STEPS)]
        print("run: %.0f bytes for each step that calls the system" % ((peaks[1] - peaks[0]) / STEPS))


if __name__ == "__main__":
    sys.exit(main())
