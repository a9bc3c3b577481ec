"""The loader on the tutorial's plugin, on its attacks and hostile copies, and on programs that are drawn."""

import random
import re
from pathlib import Path

from docs.tutorial import hostile
from library.tests.changed import recorded
from library.tests.checks import ended
from tests.model import drawn
from tests.model.program import Program
from tests.real import attack
from tests.shared.instructions import addi, i_form, u_form
from tools.simulator.runs import answer

REPOSITORY = Path(__file__).resolve().parents[2]
CALLS = "63,64,93"
EVENING = b"n\3Anng\1m\5helloo\6wisdom"
GREETED = b"hi Ann\nmessage 532\n"
DOOR = 0x40000040  # where the plugin's map has open_door
STEPS = "1000000"
DRAWN_CALLS = ",".join(map(str, drawn.LISTED))
PAGE = (REPOSITORY / "docs" / "TUTORIAL.md").read_text()


class Loader:
    """The loader's command, and a folder for the files that it is given."""

    def __init__(self, command, folder, told):
        self.command, self.folder, self.told = command, Path(folder), told

    def loaded(self, image, graph, calls=CALLS, steps=STEPS, given=EVENING):
        names = self.folder / "image", self.folder / "graph"
        for name, content in zip(names, (image, graph)):
            name.write_bytes(content)
        return ended(self.command + [*map(str, names), calls, str(steps)], given)

    def expect(self, what, pair, wanted, **words):
        self.told.same("the loader: " + what, self.loaded(*pair, **words), wanted)


def of_the_tutorial(loader):
    """Its sections 3, 4, 15, 16 and 18."""
    plugin, visitors = recorded("plugin"), recorded("visitors")
    loader.expect("the evening", plugin, (0, GREETED, b"stop exit 1\n"))
    loader.expect("the evening in 643 steps", plugin, (0, GREETED, b"stop exit 1\n"), steps=643)
    loader.expect("the evening in 642 steps", plugin, (12, GREETED, b"stop limit\n"), steps=642)
    loader.expect("the return", plugin, (10, b"", b"stop handler __cfi_bad_return\n"), given=attack.returned(DOOR))
    loader.expect("the pointer", plugin, (10, b"", b"stop handler __cfi_bad_target\n"), given=attack.pointer(DOOR))
    loader.expect("no list", visitors, (1, b"", b"not loaded: not this list: the graph lists no system calls\n"))
    loader.expect("a list that is not allowed", plugin, (1, b"", b"not loaded: not this list: 93 is not allowed\n"), calls="63,64")
    loader.expect("the graph of another image", (plugin[0], visitors[1]), (1, b"", b"not loaded: rejected Length 2532 2420\n"))


def hostile_pairs(folder):
    """The thirteen pairs of section 17, each with its name."""
    made = Path(folder) / "hostile"
    hostile.main(*(REPOSITORY / "library" / "tests" / "pairs" / name for name in ("plugin.img", "plugin.graph")), made)
    for image in sorted(made.glob("*.img")):
        yield image.stem, (image.read_bytes(), image.with_suffix(".graph").read_bytes())


def of_hostile_copies(loader):
    """What the tutorial says of the thirteen pairs; of those that are accepted how they stop."""
    said = dict(re.findall(r"^(\d\d_\w+): (.+)$", PAGE, re.M))
    stops = iter(re.findall(r"^stop (?:handler __cfi_bad_target\nstop limit\nstop load .+)$", PAGE, re.M)[0].split("\n"))
    statuses = {"handler": 10, "limit": 12, "load": 11}
    for name, pair in hostile_pairs(loader.folder):
        if said[name] == "accepted":
            stop = next(stops)
            got = loader.loaded(*pair, steps=100000)
            loader.told.same("the loader: " + name, (got[0], got[2].decode()), (statuses[stop.split()[1]], stop + "\n"))
        else:
            calls = CALLS + ",221"
            loader.expect(name, pair, (1, b"", ("not loaded: %s\n" % said[name]).encode()), calls=calls)


def called(number, file, low, high, length):
    """A program that makes one system call, with high * 4096 + low as its pointer, and exits with its answer modulo 256."""
    p = Program(1, calls=[5, 63, 64, 93])
    p.label("main")
    p.plain(addi(10, 0, file), u_form(0x37, 11, high), addi(11, 11, low), i_form(0x13, 1, 12, 0, 0), addi(12, 0, length), addi(17, 0, number))
    p.ecall()
    p.plain(addi(17, 0, 93))
    p.ecall()
    p.stop()
    return p.built("main")


def of_pointers(loader):
    """System calls whose file, pointer or number is wrong; the answers are those of docs/MACHINE.md."""
    cases = [("a read onto the shadow stack", (63, 0, 16, 0x60000, 8), -14), ("a write of code", (64, 1, 0, 0x40000, 8), -14),
             ("a write to another file", (64, 3, 0, 0x60000, 8), -9), ("a read of another file", (63, 1, 0, 0x60000, 8), -9),
             ("a read whose sum wraps", (63, 0, -8, 0x10000, -1), -14), ("a read that ends at 2^28", (63, 0, -8, 0x10000, 8), 8),
             ("a read that ends behind 2^28", (63, 0, -7, 0x10000, 8), -14), ("a read of less than is asked", (63, 0, 0, 0x10, 100), 9),
             ("another call", (5, 0, 0, 0x10, 8), -38)]
    for what, words, told in cases:
        built = called(*words)
        loader.expect(what, (built.image, built.graph), (0, b"", b"stop exit %d\n" % (told % 256)), calls="5,63,64,93", given=b"123456789")


def of_loads(loader):
    """Loads at the edges of memory, of eight bytes each: from the last bytes of each region, and from outside."""
    edges = [(0, True), (0x10000FF8, True), (0x10000FF9, False), (0x10001000, False), (0x3FFFFFFC, False), (0x40100000, True), (0x5FFFFFFF, False),
             (0x6000FFF8, True), (0x6000FFFC, False), (0x60010000, False), (2**63, False), (2**64 - 8, False), (2**64 - 4, False)]
    for address, is_there in edges:
        p = Program(1, calls=[93])
        p.label("main")
        p.plain(u_form(0x37, 5, 0x10), i_form(0x03, 3, 5, 5, 0))
        at = p.at
        p.plain(i_form(0x03, 3, 6, 5, 0), addi(17, 0, 93))
        p.ecall()
        p.stop()
        built = p.built("main", address.to_bytes(8, "little"))
        wanted = (0, b"", b"stop exit 0\n") if is_there else (11, b"", b"stop load %08x %016x\n" % (at, address))
        loader.expect("a load from %x" % address, (built.image, built.graph), wanted, calls="93")


def of_drawn_programs(loader, count, seed):
    """Programs for one hart and for several, of which hart 0 runs, against the model of tests/model."""
    rng, left, wrong = random.Random(seed), count, []
    while left:
        built = drawn.program(rng, rng.choice((1, 2)), rng.choice((1, 2)))
        if b"\ncalls " not in built.graph:
            continue
        left -= 1
        limit, given = rng.choice((50, 300, 1000)), rng.randbytes(rng.choice((0, 3, 20)))
        status, report = answer(built, None, given, limit)
        length, rest = int(report.split(b"\n")[0].split()[1]), report.split(b"\n", 1)[1]
        stop = re.search(rb"^stop .*\n", rest[length:], re.M).group()
        got = loader.loaded(built.image, built.graph, calls=DRAWN_CALLS, steps=limit, given=given)
        if got != (status, rest[:length], stop):
            wrong.append("the loader on drawn program %d: %r, not %r" % (count - left, got, (status, rest[:length], stop)))
    loader.told.count(count - len(wrong), wrong)


def load_all(told, command, folder, count, seed=1):
    loader = Loader(command, folder, told)
    of_the_tutorial(loader)
    of_hostile_copies(loader)
    of_pointers(loader)
    of_loads(loader)
    of_drawn_programs(loader, count, seed)
