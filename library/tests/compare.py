#!/usr/bin/env python3
"""Compares what `ask` says of changed pairs, text and status, with the models and, where it is built, with the program `rvcfi verify`.

    python3 library/tests/compare.py [--ask WORD ..] [--program PATH] [--seed N] [COUNT]

`ask` is library/out/ask where none is named, and the program crates/rvcfi/out/rvcfi; where there is no program a line says so. Each
pair is one of changed.py, drawn from the seed. One that differs is told with its number. The last line counts them, and the
status is 1 where one differs.
"""

import argparse
import os
import struct
import subprocess
import sys
import tempfile
from collections import Counter
from pathlib import Path

sys.dont_write_bytecode = True
sys.path.insert(0, str(Path(__file__).resolve().parents[2]))

from library.tests.changed import drawn
from tests.model.file_faults import PAGE, SHADOW_SIZE, field, image_fault
from tests.model.lean_rules import told

HERE = Path(__file__).resolve().parent
ASK = [str(HERE.parent / "out" / "ask")]
PROGRAM = HERE.parents[1] / "crates" / "rvcfi" / "out" / "rvcfi"
SECONDS = 60


def answered(command):
    done = subprocess.run(command, stdout=subprocess.PIPE, stderr=subprocess.STDOUT, stdin=subprocess.DEVNULL, timeout=SECONDS)
    return done.returncode, done.stdout.decode()


def answer(image, graph):
    """The status and the text, by expected.py and the model of all versions of graphs."""
    fault = image_fault(image)
    if fault:
        return 1, "refused 22 %s\n" % fault
    code = image[PAGE:PAGE + field(image, 152, 8)]
    version = 2 if field(image, 216, 8) == SHADOW_SIZE[2] else 1
    said = told(version, list(struct.unpack("<%dI" % (len(code) // 4), code)), graph)
    return 0 if said == "accepted" else 1, said + "\n"


def sort(text):
    """The words of an answer that tell its sort."""
    words = text.split()
    return " ".join(words[:2] + words[2:3] * (words[:2] == ["refused", "22"]) + words[-1:] * (words[:2] == ["refused", "23"]))


def compared(count, seed, ask, program):
    """The lines that tell what differs, and how often each sort of answer came."""
    wrong, sorts = [], Counter()
    with tempfile.TemporaryDirectory() as folder:
        names = [os.path.join(folder, name) for name in ("image", "graph")]
        for number, (change, *pair) in enumerate(drawn(count, seed)):
            for name, content in zip(names, pair):
                Path(name).write_bytes(content)
            wanted, got = answer(*pair), answered(ask + names)
            sorts[sort(wanted[1])] += 1
            if got != wanted:
                wrong.append("pair %d (%s): ask %r, expected %r" % (number, change, got, wanted))
            told = answered([program, "verify", "--", *names]) if program else got
            if told != got:
                wrong.append("pair %d (%s): ask %r, rvcfi verify %r" % (number, change, got, told))
    return wrong, sorts


def main():
    words = argparse.ArgumentParser(description=__doc__, formatter_class=argparse.RawDescriptionHelpFormatter)
    words.add_argument("--ask", nargs="+", default=ASK, help="the command, as: --ask qemu-aarch64 library/out/aarch64/ask --")
    words.add_argument("--program", default=str(PROGRAM))
    words.add_argument("--seed", type=int, default=1)
    words.add_argument("count", type=int, nargs="?", default=1000)
    options = words.parse_args()
    program = options.program if os.access(options.program, os.X_OK) else None
    if program is None:
        print("not compared with the program, since it is not built: %s" % options.program)
    wrong, sorts = compared(options.count, options.seed, options.ask, program)
    print("\n".join(wrong + ["%5d %s" % (many, name) for name, many in sorts.most_common()]))
    print("%d passed, %d failed" % (options.count - len(wrong), len(wrong)))
    return 1 if wrong else 0


if __name__ == "__main__":
    sys.exit(main())
