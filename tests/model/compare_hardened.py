#!/usr/bin/env python3
"""Compares what the model hardens in each form with what `rvcfi harden` and `rvcfi link` make, without a list of system calls and under
one: the text, the image, the graph and the map, byte for byte.

    python3 tests/model/compare_hardened.py [--program PATH] [--levels=-O2,..] [--links=-O2,..] [--drawn 200] [--seed N]

The objects are the programs of tests/real and bench/programs/states.c, by gcc and by clang, for rv64im and rv64i, each as one object for
`harden`; and as several for `link`, compiled as their page says and with `-fpic`; and links of drawn objects whose symbols share names:
global, weak and common ones, in all orders. All are without a fault, but for names. Before that the small objects of forms.py, which
writes their units down one by one, have to become what that says. Each that differs is told, and the status is 1 then.
"""

import os
import random
import sys
import tempfile
from pathlib import Path

sys.dont_write_bytecode = True
sys.path.insert(0, str(Path(__file__).resolve().parents[2]))

from tests.model.forms import FORMS, LISTING, ROWS, STORING, made
from tests.model.hardener import CALLS, Hardening, Source, small_object
from tests.model.joiner import Joined
from tests.model.lean_hardener import LeanHardening
from tests.shared import programs
from tests.shared.command import Words
from tests.shared.forms import FORMS as OFFERED
from tests.shared.texts import policy_text
from tests.shared.units import CODE, UNITS
from tools.sysroot import compilers

ABSENT = "not compared, since there is no %s: the programs of %s"
NAMES = ["f0", "f1", "f2", "c0", "c1", "c2"]
SORTS = [".globl", ".weak", ""]


def drawn_source(rng, number):
    """The assembly of an object: its functions and data, global, weak, common or its own, and code that uses names."""
    lines, mine = [".text"], []
    for name in rng.sample(NAMES, rng.randint(1, 5)):
        sort = rng.choices(SORTS, [2, 4, 1])[0]
        mine.append(name)
        if name[0] == "f":
            lines += ["%s %s" % (sort, name) if sort else "", ".type %s,@function" % name, "%s:" % name,
                      "addi x10,x10,%d" % rng.randint(1, 99), "ret", ".size %s,.-%s" % (name, name)]
        elif rng.random() < 0.6:
            lines += [".comm %s,%d,%d" % (name, 8 * rng.randint(1, 6), 1 << rng.randint(3, 6))]
        else:
            lines += [".data", ".p2align 3", "%s %s" % (sort, name) if sort else "", "%s:" % name, ".dword %d" % rng.randint(1, 99),
                      ".dword %s" % rng.choice(NAMES), ".text"]
    start = "main" if number == 0 else "part%d" % number
    lines += [".globl %s" % start, ".type %s,@function" % start, "%s:" % start, "addi x2,x2,-16", "sd x1,8(x2)"]
    for _ in range(rng.randint(1, 5)):
        name = rng.choice(NAMES)
        lines += [".option pic" if rng.random() < 0.7 else ".option nopic"]
        if name[0] == "f":
            lines += rng.choice([["call " + name], ["la x5," + name, "jalr x1,0(x5)"]])
        else:
            lines += ["la x6," + name, "ld x7,%d(x6)" % rng.choice([0, 8]), "add x10,x10,x7"]
    return "\n".join(lines + ["ld x1,8(x2)", "addi x2,x2,16", "ret", ".size %s,.-%s" % (start, start), ""])


def is_small(row, form):
    """Whether a small object becomes what is written down."""
    got, wanted = Hardening(Source(small_object(row)), row.entry, form, row.policy_text()), made(row, FORMS[form])
    code = got.built.words[:(wanted.call[0]) // 4 + 1][-1:] + got.built.words[(UNITS[got.form.image] - CODE) // 4:]
    return (code, got.built.data, got.graph.decode(), got.map.decode()) == (
        [wanted.call[1]] + wanted.words, wanted.data, wanted.graph, wanted.map)


def unlike(source, entry, folder, command, hardening):
    """The forms in which a command makes something else, without a policy and under a list of system calls, and what."""
    policy = os.path.join(folder, "policy")
    Path(policy).write_text(policy_text(CALLS))
    for form in hardening.FORMS:
        yield from unlike_in(form, hardening(source, entry, form), folder, command(form, "none", files_in(folder)))
        listed = hardening(source, entry, form, policy_text(CALLS))
        yield from unlike_in(form + " with a list", listed, folder, command(form, policy, files_in(folder)))


def files_in(folder):
    return [os.path.join(folder, name) for name in ("image", "graph", "map")]


def unlike_in(form, made, folder, words):
    """What a command makes otherwise in one form."""
    files = files_in(folder)
    done = compilers.run(words)
    got = [done.stdout] + [Path(file).read_bytes() if os.path.exists(file) else b"" for file in files]
    for name, one, other in zip(("text", "image", "graph", "map"), got, (made.told(), made.image, made.graph, made.map)):
        if one != other:
            yield "%s: the %s" % (form, name)


def unlike_in_all(source, entry, folder, command):
    return [what for hardening in (Hardening, LeanHardening) for what in unlike(source, entry, folder, command, hardening)]


def objects(levels, folder):
    """The compiled programs."""
    for compiler in programs.compilers_here(ABSENT, programs.PROCESSORS):
        for level in levels:
            yield from (programs.joined(compiler, level, program, folder) for program in programs.PROGRAMS)
            if compiler.processor == "rv64im":
                yield programs.states_object(compiler, level, folder)


def drawn(count, seed, folder):
    """Links of two to four drawn objects."""
    rng = random.Random(seed)
    for case in range(count):
        paths = []
        for number in range(rng.randint(2, 4)):
            path = os.path.join(folder, "drawn%d_%d" % (case, number))
            Path(path + ".s").write_text(drawn_source(rng, number))
            compilers.must(compilers.gcc().command + ["-c", path + ".s", "-o", path + ".o"])
            paths.append(path + ".o")
        yield "main", paths


def compiled(levels, folder):
    """The objects of the compiled programs, as their page says and with -fpic."""
    for compiler in programs.compilers_here(ABSENT, programs.PROCESSORS):
        for each in (compiler, programs.shared(compiler)):
            for level in levels:
                yield from ((programs.ENTRY, programs.objects_of(each, level, program, folder)) for program in programs.PROGRAMS)


def harden_differs(tool, path, folder):
    words = lambda form, policy, files: [tool, "harden", form, path, programs.ENTRY, policy, *files]
    return unlike_in_all(Source(Path(path).read_bytes()), programs.ENTRY, folder, words)


def link_differs(tool, entry, paths, folder):
    """Of a link that is refused its line where that differs, else the forms that differ."""
    words = lambda form, policy, files: [tool, "link", form, entry, policy, *files, *paths]
    contents = [Source(Path(path).read_bytes()) for path in paths]
    whole = Joined(contents)
    name, missing = whole.duplicate(), whole.undefined([len(each.symbols) for each in contents])
    line = b"refused 27 Duplicate %s\n" % name.encode() if name else b"refused 15 Undefined %d in %d\n" % missing if missing else None
    if line:
        done = compilers.run(words("plain", "none", files_in(folder)))
        return [] if (done.returncode, done.stdout) == (1, line) else ["%r in place of %r" % (done.stdout, line)]
    return unlike_in_all(whole, entry, folder, words)


def main():
    words = Words(__doc__)
    words.add_argument("--levels", default="-O0,-O1,-O2,-O3,-Os", help="of objects; with =, as --levels=-O2,-Os")
    words.add_argument("--links", default="-O0,-O2,-Os", help="levels of what is linked; with =, as --links=-O2,-Os")
    words.add_argument("--drawn", type=int, default=200, help="how many links are drawn")
    words.add_argument("--seed", type=int, default=1)
    options = words.parse_args()
    small = [(row, form) for row in ROWS + STORING + LISTING for form in FORMS]
    strange = ["%s in %s" % (row.name, form) for row, form in small if not is_small(row, form)]
    print("%d of %d small ones are as written down%s" % (len(small) - len(strange), len(small), "".join(", not " + each for each in strange)))
    wrong = len(strange)
    with tempfile.TemporaryDirectory() as folder:
        given = [([path], harden_differs(options.program, path, folder)) for path in objects(options.levels.split(","), folder)]
        links = [*drawn(options.drawn, options.seed, folder), *compiled(options.links.split(","), folder)]
        given += [(paths, link_differs(options.program, entry, paths, folder)) for entry, paths in links]
    for paths, found in given:
        wrong += bool(found)
        for what in found:
            print("%s differs, %s" % (" ".join(map(os.path.basename, paths)), what))
    print("%d objects and %d links in %d forms, %d of them differ" % (len(given) - len(links), len(links), len(OFFERED), wrong))
    return 1 if wrong else 0


if __name__ == "__main__":
    sys.exit(main())
