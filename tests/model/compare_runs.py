#!/usr/bin/env python3
"""Compares `rvcfi run` with the model beside this file on programs, images and scripts that are drawn at random.

    python3 tests/model/compare_runs.py [--program PATH] [--seed N] [COUNT]

The program is crates/rvcfi/out/rvcfi where none is named, as `rt ci` or `rt run` leaves it. Before that the model's steps are
compared with those that qemu gave, in crates/test_machine/src/steps.rt. Of each case the status and the whole text have to be
the same; one that differs is told by its number, and its files stay in a folder. The status is 1 where there is one. It ends with
a count of the answers by their kind. Of a pair with a fault, the rule and the address are those of rules.py.
"""

import random
import re
import subprocess
import sys
import tempfile
from collections import Counter
from pathlib import Path

sys.dont_write_bytecode = True
sys.path.insert(0, str(Path(__file__).resolve().parents[2]))

from tests.model import drawn, rules
from tests.shared.command import Words
from tests.shared.paths import CRATES
from tests.shared.units import CODE
from tools.simulator.machine import SHADOW_SIZE, Machine
from tools.simulator.runs import answer, refusal

TESTED, BYTES_AT, X12, BYTES = 0x40000020, 0x10020, 0x0123456789ABCDEF, bytes.fromhex("8091a2b3c4d5e6f708192a3b4c5d6e7f")


def qemu_rows():
    """The word, x10 and x11 of each row, and what qemu gave: x12, the next pc, the 8 bytes at x13."""
    text = (CRATES / "test_machine" / "src" / "steps.rt").read_text()
    for row in re.findall(r"^ +\w+ ((?:[0-9a-f]+ ?){6})\\n", text, re.M):
        yield [int(number, 16) for number in row.split()]


def stepped(word, a, b):
    machine = Machine(1, bytes(TESTED - CODE) + word.to_bytes(4, "little"), b"", b"", 1)
    machine.pcs[0] = TESTED
    machine.registers[0][10:14] = [a, b, X12, BYTES_AT]
    machine.write(BYTES_AT, len(BYTES), int.from_bytes(BYTES, "little"))
    assert machine.step(0) is None
    return [machine.registers[0][12], machine.pcs[0], machine.read(BYTES_AT, 8)]


def is_qemus():
    rows = list(qemu_rows())
    wrong = ["%08x" % word for word, a, b, *told in rows if stepped(word, a, b) != told]
    print("%d of %d steps are qemu's%s" % (len(rows) - len(wrong), len(rows), ": not " + ", ".join(wrong) if wrong else ""))
    return rows and not wrong


def with_size(image, size):
    """An image whose shadow stack has another size."""
    return image[:216] + size.to_bytes(8, "little") + image[224:]


def changed_image(rng, built):
    """An image that is not as it should be, the version that it tells, and the answer: the shadow stack has a size that no
    version has or that of the other version, or a bit of the prologue is turned, but not of its call."""
    kind = rng.randrange(3)
    if kind == 0:
        size = rng.choice((0, 1, 0x10001, 0x20000, 0x7FFFF, 0x80001, 0x100000, 2**64 - 1))
        return with_size(built.image, size), None, b"refused 22 Byte 216\n"
    if kind == 1:
        version = 3 - built.version
        return with_size(built.image, SHADOW_SIZE[version]), version, b"rejected Prologue 40000010\n"
    call = {1: 13, 2: 17}[built.version]
    index = rng.choice([k for k in range(call + 3) if k != call])
    words = list(built.words)
    words[index] ^= 1 << rng.randrange(32)
    return built._replace(words=words).image, built.version, b"rejected Prologue %08x\n" % (CODE + 4 * index)


def judged(built, script, given, limit):
    """The answer of a program whose pair may have a fault."""
    told = rules.verdict(built.version, built.words, built.graph)
    if told != "accepted":
        return refusal(built.version, script) or (1, told.encode() + b"\n")
    return answer(built._replace(starts=rules.starts(built.version, built.words, built.graph)), script, given, limit)


def case(rng):
    """The files of a case, the limit and the answer."""
    built = drawn.program(rng, 2 if rng.random() < 0.85 else 1, rng.choice((1, 2)))
    limit = rng.choice((0, 50, 300, 1000, 1000, 1000))
    given = rng.randbytes(rng.choice((0, 3, 20)))
    script = drawn.script(rng, built, limit)
    if script is not None and rng.random() < 0.15:
        script = drawn.turned(rng, script)
    kind = rng.random()
    if kind < 0.3:
        built = drawn.changed(rng, built)
    files = {"image": built.image, "graph": built.graph, "input": given}
    if script is not None:
        files["script"] = script
    if kind < 0.3:
        return files, limit, judged(built, script, given, limit)
    if kind < 0.9:
        return files, limit, answer(built, script, given, limit)
    files["image"], version, told = changed_image(rng, built)
    return files, limit, version and refusal(version, script) or (1, told)


def run(program, folder, files, limit):
    for name in ("image", "graph", "script", "input"):
        path = Path(folder) / name
        path.unlink(missing_ok=True)
        if name in files:
            path.write_bytes(files[name])
    script = "script" if "script" in files else "none"
    words = [program, "run", "image", "graph", script, "input", str(limit)]
    done = subprocess.run(words, cwd=folder, stdout=subprocess.PIPE, stderr=subprocess.STDOUT)
    return done.returncode, done.stdout


def kind_of(told):
    """The words of an answer that are no numbers."""
    line = re.search(rb"^(stop|refused|rejected).*$", told[1], re.M).group().decode()
    return " ".join(word for word in line.split() if not re.fullmatch("[0-9]+|[0-9a-f]{8}|[0-9a-f]{16}", word))


def main():
    parser = Words(__doc__)
    parser.add_argument("--seed", type=int, default=1)
    parser.add_argument("count", type=int, nargs="?", default=3000)
    options = parser.parse_args()
    right = is_qemus()
    kinds, folder = Counter(), tempfile.mkdtemp(prefix="harts")
    for number in range(options.count):
        files, limit, told = case(random.Random("%d %d" % (options.seed, number)))
        got = run(options.program, folder, files, limit)
        kinds[kind_of(told)] += 1
        if got != told:
            sys.exit("case %d of seed %d differs; its files are in %s\nthe model: %r\nthe program: %r" % (
                number, options.seed, folder, told, got))
    for kind, count in sorted(kinds.items()):
        print("%6d  %s" % (count, kind))
    print("%d cases, without a difference" % options.count)
    return 0 if right else 1


if __name__ == "__main__":
    sys.exit(main())
