#!/usr/bin/env python3
"""Turns the bytes of files at random, and asks of each call of the program what docs/COMMANDS.md says of every call.

    python3 tests/fuzz/turn.py [--program PATH] [--minutes N] [--seed TEXT] [--case NUMBER] [--keep FOLDER]

Objects, images, graphs, maps, policies, scripts and command lines are turned: bits, bytes, ranges, fields of headers, rows of
tables, words of code, lines, numbers at their limits, cut and longer files (turns.py, cases.py). Each case draws from the seed
and its own number, so `--seed TEXT --case NUMBER` is that case again, by the same compilers and the same program. `rewrite`,
`harden` and `link` in each form, `verify`, `run`, `compare` and `compare-link` are asked, `demo` by wrong words alone, and of
each call:

- its status is one that docs/COMMANDS.md names for the command, and its text is one of the status's forms (answers.py);
- nothing goes to standard error, and no signal ends it;
- it changes, makes and removes no file but the three of a `rewrite`, a `harden` or a `link` that ends with status 0 or 4;
- it takes at most a second of a processor, or one for each 64 KiB that it reads, prints or writes;
- its memory is at most 64 times what it reads, prints and writes, beside what each call has: the pages of the program and of the
  C library, and 184 KiB; for `run` also 320 KiB, a machine's table of pages and the first of them, for `compare` and `compare-link`
  those of two, and 256 bytes for each of STEPS, since they hold the system calls of both;
- what is hardened, `verify` accepts, `compare` or `compare-link` takes and never says `differs` of, and `run` runs, to its end
  within as many steps for each of the program's as the form has; and `run` says of a pair that is refused or rejected just what
  `verify` says.

One kind of failure is known: a system call may write 2^28 bytes, so a turned program can keep `run` and `compare` busy for seconds
and want hundreds of megabytes, however small STEPS is. Objects whose sections are the same bytes of the file, of which
bench/README.md tells that time and memory grow with the square, are not among those that are turned; but of sections of data that
are the same bytes, and more than there is room for, it is asked that `rewrite` refuses them within these bounds.

What fails is left in a folder with its files and command line. It needs Python 3.9, Linux that lets a process trace its child,
and the program; with the compilers of tests/real/run.py there are more objects. The status is 1 where a case failed.
"""

import os
import random
import shlex
import sys
import tempfile
import time
from pathlib import Path

sys.dont_write_bytecode = True
sys.path.insert(0, str(Path(__file__).resolve().parents[2]))

from tests.fuzz import calls, samples
from tests.fuzz.asked import KIB, Case, Failed, Figures
from tests.fuzz.cases import turned_case
from tests.shared.command import Words


def told(case, why):
    """What a failed case is told as: why it failed, and each of its calls."""
    lines = ["case %s: %s" % (case.name, why)]
    for words, call in case.calls:
        lines += ["", " ".join(shlex.quote(word.decode(errors="backslashreplace")) for word in [b"rvcfi"] + words)]
        lines += ["status %d, %.3f s, %d KiB, output %.300r, error %.300r" % (
            call.status, call.seconds, call.memory // KIB, call.output, call.error)]
    return "\n".join(lines + [""]).encode()


def keep(case, why, folder):
    """Leaves a failed case in a folder of its own."""
    place = os.path.join(folder, case.name.replace("/", "-"))
    os.makedirs(place, exist_ok=True)
    for name, content in {**case.files, b"told": told(case, why)}.items():
        with open(os.path.join(place.encode(), name), "wb") as file:
            file.write(content)
    print("FAILED %s: %s (%s)" % (case.name, why, place), flush=True)


def tried(name, all_samples, program, folder, figures, kept):
    """Whether a case passes."""
    case = Case(name, program, folder, figures)
    try:
        turned_case(case, all_samples)
    except Failed as why:
        keep(case, why, kept)
        return False
    finally:
        case.clear()
    return True


def numbers(options):
    """The numbers of the cases, until the time is up."""
    if options.case is not None:
        yield options.case
        return
    ends, number = time.monotonic() + 60 * options.minutes, 0
    while time.monotonic() < ends:
        yield number
        number += 1


def main():
    words = Words(__doc__)
    words.add_argument("--minutes", type=float, default=1)
    words.add_argument("--seed", default=str(random.SystemRandom().randrange(10 ** 9)))
    words.add_argument("--case", type=int)
    words.add_argument("--keep", metavar="FOLDER", help="where failed cases are left; a new folder for temporary files without it")
    options = words.parse_args()
    program, figures = calls.Program(options.program), Figures()
    print("seed %s" % options.seed, flush=True)
    with tempfile.TemporaryDirectory() as folder, tempfile.TemporaryDirectory() as scratch:
        kept = options.keep or os.path.join(tempfile.gettempdir(), "rvcfi-fuzz-%s" % options.seed)
        os.mkdir(os.path.join(folder, "folder"))
        all_samples = samples.samples(program, scratch)
        hardened = sum(it.image is not None for it in all_samples)
        print("%d objects, of which %d are hardened" % (len(all_samples), hardened), flush=True)
        if not hardened:
            sys.exit("the program hardens none of the objects")
        passed = [tried("%s/%d" % (options.seed, k), all_samples, program, folder, figures, kept) for k in numbers(options)]
    figures.tell()
    print("%d cases passed, %d failed" % (sum(passed), len(passed) - sum(passed)))
    return 0 if all(passed) else 1


if __name__ == "__main__":
    try:
        sys.exit(main())
    except calls.Untraced:
        sys.exit("this system lets no process trace its child, so that peak memory is not known")
