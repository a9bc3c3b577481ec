"""What a program answers of graphs of version 3, compared with the model: `verify` of pairs, `run` of those that are accepted, and
`harden` of objects in both forms, byte for byte."""

import random
from pathlib import Path

from tests.model import lean_cases, lean_drawn, lean_faults, lean_kinds, lean_rows
from tests.model.compare_hardened import files_in, unlike, unlike_in
from tests.model.forms import LEAN, LISTING, ROWS, STORING
from tests.model.hardener import Source, small_object
from tests.model.lean_hardener import LeanHardening
from tests.model.lean_real import compiled
from tests.model.lean_rules import pair_of, told as told_of
from tests.model.small_objects import P, Q
from tests.shared import programs
from tests.shared.texts import policy_text
from tools.simulator.runs import answer
from tools.sysroot import compilers

LIMIT, MOST = 1000, 200000  # steps of a run, and of one that fills the shadow stack


def pairs(seed):
    """Pairs, each with a name."""
    yield from lean_kinds.pairs(row for rows in (*lean_rows.ALL, *lean_cases.ALL) for row in rows())
    yield from ((fault.name, fault.built) for fault in lean_faults.faults())
    yield from (("pair %d of seed %d" % (number, seed), built) for number, (_, built) in enumerate(lean_drawn.pairs(random.Random(seed), 1)))


def turned(rng, built):
    """A script that changes data, of one hart or of several."""
    harts = rng.randrange(1, 9) if built.version == 2 else 1
    lines = ["rvcfi-script 2", "harts %d" % harts]
    lines += ["turn %d %d" % (rng.randrange(harts), rng.randrange(1, 60)) for _ in range(rng.randrange(12))]
    for step in sorted(rng.sample(range(200), 4)):
        lines.append("at %d %08x %s" % (step, 0x10000 + 8 * rng.randrange(12), rng.choice(sorted(built.starts)).to_bytes(8, "little").hex()))
    return "\n".join([*lines, "end", ""]).encode()


def check_pairs(told, seed):
    """`verify` of each pair, and `run` of those that are accepted."""
    rng, count, runs = random.Random(seed), 0, 0
    for name, built in pairs(seed):
        said, count = told_of(built.version, built.words, built.graph), count + 1
        got = told.verified(built.image, built.graph)
        told.check(got == (0 if said == "accepted" else 1, said + "\n"), "%s: the program says %r, not %s" % (name, got, said))
        if said == "accepted":
            whole = built._replace(starts=pair_of(built.version, built.words, built.graph).starts())
            script, runs = turned(rng, whole), runs + 1
            (told.folder / "script").write_bytes(script)
            done = compilers.run([told.program, "run", *(str(told.folder / each) for each in ("image", "graph", "script")), "none", str(LIMIT)])
            wanted = answer(whole, script, b"", LIMIT)
            told.check((done.returncode, done.stdout) == wanted, "%s: the program runs it to %r, not %r" % (name, done.stdout, wanted))
    print("asked of the program: %d pairs with graphs of version 3, and %d runs" % (count, runs))


def turned_before(step, to):
    return b"rvcfi-script 1\nat %d 00010000 %s\nend\n" % (step, to.to_bytes(4, "little").hex().encode())


def check_steps(told):
    """Runs of a computed call and of a computed jump, of one hart and of several, the pointer turned before each step in turn."""
    count = 0
    for form in LEAN:
        for source, lines, targets in (Source(P.file()), (), 2), (Source(Q.file()), ("site h+0 g+0",), 2):
            built = LeanHardening(source, "main", form, policy_text(None, lines) if lines else "").built
            whole = built._replace(starts=pair_of(built.version, built.words, built.graph).starts())
            told.verified(built.image, built.graph)
            pointers = [int.from_bytes(built.data[8 * k:8 * k + 8], "little") for k in range(targets)]
            for step in range(60):
                for to in (*pointers, pointers[1] + 8, pointers[1] + 3):
                    script, count = turned_before(step, to), count + 1
                    (told.folder / "script").write_bytes(script)
                    done = compilers.run([told.program, "run", *(str(told.folder / each) for each in ("image", "graph", "script")), "none", str(LIMIT)])
                    wanted = answer(whole, script, b"", LIMIT)
                    told.check((done.returncode, done.stdout) == wanted, "%s, step %d to %x: %r, not %r" % (form, step, to, done.stdout, wanted))
    print("asked of the program: %d runs, a pointer turned before each step" % count)


def check_deepest(told):
    """Runs that fill the shadow stack but for a slot, to the last one and past it, which end in a handler or go back all the way."""
    stops = set()
    for name, of in lean_cases.deepest():
        built = of.built
        told.verified(built.image, built.graph)
        done = compilers.run([told.program, "run", *(str(told.folder / each) for each in ("image", "graph")), "none", "none", str(MOST)])
        whole = built._replace(starts=pair_of(built.version, built.words, built.graph).starts())
        wanted = answer(whole, None, b"", MOST)
        told.check((done.returncode, done.stdout) == wanted, "%s: %r, not %r" % (name, done.stdout, wanted))
        stops.add(next(line for line in wanted[1].split(b"\n") if line.startswith(b"stop ")))
    told.check(stops == {b"stop exit 0", b"stop exit 5", b"stop handler __cfi_deep"}, "the stops are %s" % stops)


def check_objects(told, levels):
    """`harden` of the small objects of forms.py, and of compiled ones."""
    folder, count = str(told.folder), 0
    path, policy = (str(told.folder / each) for each in ("object", "policy"))
    for row in ROWS + STORING + LISTING:
        Path(path).write_bytes(small_object(row))
        Path(policy).write_text(row.policy_text())
        for form in LEAN:
            made, count = LeanHardening(Source(small_object(row)), row.entry, form, row.policy_text()), count + 1
            words = [told.program, "harden", form, path, row.entry, policy if row.policy_text() else "none", *files_in(folder)]
            differing = list(unlike_in(form, made, folder, words))
            told.check(not differing, "%s: %s" % (row.name, ", ".join(differing)))
    for name, content, _ in compiled(levels, folder) if levels else ():
        Path(path).write_bytes(content)
        words = lambda form, policy, files: [told.program, "harden", form, path, programs.ENTRY, policy, *files]
        differing, count = list(unlike(Source(content), programs.ENTRY, folder, words, LeanHardening)), count + 2 * len(LEAN)
        told.check(not differing, "%s: %s" % (name, ", ".join(differing)))
    print("asked of the program: %d objects hardened" % count)
