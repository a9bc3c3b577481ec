"""Rows of literal numbers, as they were worked out apart from this model, and how they are asked: of the model, and of a program.

A row has a name, and tells what fails when it is asked of one of the two. What each answers of files are a status and a text.
"""

import functools
import struct
import subprocess
from collections import Counter
from pathlib import Path
from typing import NamedTuple

from tests.model.compared import compared, form_of, map_fault
from tests.model.hardener import Source
from tests.model.hardening import hardened_in
from tests.model.joiner import Joined
from tests.model.lean_rules import pair_of, told
from tests.model.lean_walk import LeanRun
from tests.model.program import Built
from tests.shared.texts import policy_text
from tools.simulator.machine import CODE
from tools.simulator.runs import answer, refusal, report, script_of

LIMIT = 1000000
STATUSES = {"exit": 0, "handler": 10, "break": 11, "load": 11, "limit": 12}
FIRST_STATUS = {"same": 0, "differs": 1, "refused": 1, "rejected": 1, "limit": 12, "untame": 13}


class Given(NamedTuple):
    """What is hardened: the files of one object or, where they are joined, of several; the form, the policy and the entry."""
    contents: tuple
    form: str = "lean"
    policy: str = ""
    entry: str = "main"
    is_linked: bool = False

    @property
    def made(self):
        return made_of(self)

    @property
    def built(self):
        return self.made.built

    def head(self, command):
        """The command, by whether objects are joined."""
        linked = {"harden": "link", "compare": "compare-link"}
        return linked[command] if self.is_linked else command


@functools.lru_cache(16)
def made_of(given):
    """What the model makes of it."""
    sources = [Source(content) for content in given.contents]
    return hardened_in(given.form, Joined(sources) if given.is_linked else sources[0], given.entry, given.policy)


def built_of(image, graph):
    """A pair of files by their parts."""
    size, = struct.unpack_from("<Q", image, 152)
    start, count = (struct.unpack_from("<Q", image, at)[0] for at in (72, 96))
    version = 2 if struct.unpack_from("<Q", image, 216)[0] == 0x80000 else 1
    words = list(struct.unpack_from("<%dI" % (size // 4), image, 0x1000))
    return Built(version, words, image[start:start + count], graph, set(), {})


class Model:
    """The model, asked as a program is."""
    name = "the model"

    def hardened(self, given):
        """The status, the text, and the three files, or None."""
        made, text = made_of(given), made_of(given).told()
        is_made = text.startswith(b"rewritten ")
        return 1 - is_made, text.decode(), (made.image, made.graph, made.map) if is_made else None

    def verified(self, image, graph):
        built = built_of(image, graph)
        said = told(built.version, built.words, graph)
        return (0 if said == "accepted" else 1), said + "\n"

    def ran(self, image, graph, script, limit):
        """The report of a run; of one that leaves its graph where it does."""
        built = built_of(image, graph)
        said = told(built.version, built.words, graph)
        refused = None if said != "accepted" else refusal(built.version, script)
        if said != "accepted" or refused:
            return (refused[0], refused[1].decode()) if refused else (1, said + "\n")
        pair = pair_of(built.version, built.words, graph)
        if not graph.startswith(b"rvcfi-graph 3\n"):
            status, text = answer(built._replace(starts=pair.starts()), script, b"", limit)
            return status, text.decode("latin-1")
        done = LeanRun(built, pair, script_of(script or b"rvcfi-script 1\nend\n"), b"", limit)
        status, text = report(built.version, done)
        return (None, "it leaves its graph: %s" % (done.failure,)) if done.failure else (status, text.decode("latin-1"))

    def compared(self, given, image, places, limit):
        """An object beside an image, at a map: its own, or one that is refused."""
        made = made_of(given._replace(form=form_of(places)))
        fault = map_fault(made, given.entry, form_of(places), places)
        if fault:
            return 1, "refused 24 Map %s\n" % fault
        assert places == made.map, "the model compares at the map of hardening alone"
        return compared(made, given.entry, built_of(image, b""), b"", limit)


class Program:
    """A program, which is asked in files of a folder."""

    def __init__(self, path, folder):
        self.name, self.path, self.folder = path, path, Path(folder)

    def put(self, name, content):
        """Writes a file; `none` stands for one without content."""
        if not content:
            return "none"
        (self.folder / name).write_bytes(content)
        return name

    def asked(self, *words):
        done = subprocess.run([self.path, *words], cwd=self.folder, stdout=subprocess.PIPE, stderr=subprocess.STDOUT, check=False)
        return done.returncode, done.stdout.decode("latin-1")

    def objects(self, given):
        return [self.put("object%d" % k, content) for k, content in enumerate(given.contents)]

    def hardened(self, given):
        objects, policy = self.objects(given), self.put("policy", given.policy.encode())
        own, names = [given.entry, policy, "image", "graph", "map"], ("image", "graph", "map")
        for name in names:
            (self.folder / name).unlink(missing_ok=True)
        status, text = self.asked(given.head("harden"), given.form, *(own + objects if given.is_linked else objects + own))
        return status, text, tuple((self.folder / name).read_bytes() for name in names) if status == 0 else None

    def verified(self, image, graph):
        return self.asked("verify", self.put("image", image), self.put("graph", graph))

    def ran(self, image, graph, script, limit):
        return self.asked("run", self.put("image", image), self.put("graph", graph), self.put("script", script), "none", str(limit))

    def compared(self, given, image, places, limit):
        objects, policy = self.objects(given), self.put("policy", given.policy.encode())
        own = [given.entry, policy, self.put("image", image), self.put("map", places), "none", str(limit)]
        return self.asked(given.head("compare"), *(own + objects if given.is_linked else objects + own))


class Hardens(NamedTuple):
    """What an object becomes: what is told, words from some offsets on, all lines of its graph but the first and the last or some that it
    has and has not, the offsets of its gates, its data and its map; and that it is accepted."""
    name: str
    given: Given
    said: str
    words: dict = {}
    lines: list = None
    gates: str = None
    data: str = None
    map: str = None
    has: tuple = ()

    @property
    def form(self):
        return self.given.form

    def failing(self, asked):
        status, text, files = asked.hardened(self.given)
        yield from self.unlike("what is told", (status, text), (self.said[:7] == "refused", self.said + "\n"))
        if not files or self.said[:7] == "refused":
            return
        image, graph, places = files
        built, lines = built_of(image, graph), graph.decode().split("\n")
        for offset, wanted in self.words.items():
            wanted = numbers(wanted)
            yield from self.unlike("words from %x" % offset, built.words[offset // 4:offset // 4 + len(wanted)], wanted)
        heads = ["rvcfi-graph %d" % (3 if "lean" in self.form else 2 if "split" in self.form else 1)]
        yield from self.unlike("the graph", lines, [*heads, *self.lines, "end", ""] if self.lines is not None else lines)
        yield from self.unlike("lines of the graph", [line for line in self.has if line not in lines], [])
        gates = [int(line.split()[1], 16) - CODE for line in places.decode().split("\n")[1:-2]]
        yield from self.unlike("the gates", gates, gates if self.gates is None else [int(each, 16) for each in self.gates.split()])
        yield from self.unlike("the data", built.data.hex(), built.data.hex() if self.data is None else self.data)
        yield from self.unlike("the map", places.decode(), places.decode() if self.map is None else self.map)
        yield from self.unlike("what is told of the pair", asked.verified(image, graph), (0, "accepted\n"))

    def unlike(self, what, got, wanted):
        if got != wanted:
            yield "%s: %s: %s, not %s" % (self.name, what, got, wanted)


class Leaves(NamedTuple):
    """Which lines of leaf ranges the graph of an object has."""
    name: str
    given: Given
    wanted: list

    @property
    def form(self):
        return self.given.form

    def failing(self, asked):
        status, text, files = asked.hardened(self.given)
        lines = [line for line in files[1].decode().split("\n") if line.startswith("leaf")] if files else text
        if lines != self.wanted:
            yield "%s: %s, not %s" % (self.name, lines, self.wanted)
        if files and asked.verified(*files[:2]) != (0, "accepted\n"):
            yield "%s: it is not accepted" % self.name


class Verifies(NamedTuple):
    """What is told of a pair."""
    name: str
    built: Built
    wanted: str

    def failing(self, asked):
        wanted = (0 if self.wanted == "accepted" else 1), self.wanted + "\n"
        got = asked.verified(self.built.image, self.built.graph)
        if got != wanted:
            yield "%s: %s, not %s" % (self.name, got, wanted)


class Runs(NamedTuple):
    """Lines that the report of a run has: of a pair, or of what an object becomes, under a script."""
    name: str
    of: object
    wanted: list
    script: bytes = None
    limit: int = LIMIT

    def failing(self, asked):
        files = asked.hardened(self.of)[2] if isinstance(self.of, Given) else (self.of.image, self.of.graph)
        if not files:
            yield "%s: it is not hardened" % self.name
            return
        status, text = asked.ran(*files[:2], self.script, self.limit)
        missing = [line for line in self.wanted if line not in text.split("\n")]
        stop = next((line.split(" ") for line in text.split("\n") if line.startswith("stop ")), ["stop", "limit"])
        wanted = 1 if self.wanted[0][:7] == "refused" else STATUSES[stop[3] if stop[1] == "hart" else stop[1]]
        if missing or status != wanted:
            yield "%s: status %s, without %s: %r" % (self.name, status, missing, text)


class Compares(NamedTuple):
    """What is told of an object beside an image, its own where no other is named, at a map."""
    name: str
    given: Given
    wanted: str
    image: bytes = None
    map: bytes = None
    limit: int = LIMIT

    def failing(self, asked):
        _, text, files = asked.hardened(self.given)
        if not files:
            yield "%s: it is not hardened: %s" % (self.name, text)
            return
        status, text = asked.compared(self.given, self.image or files[0], self.map or files[2], self.limit)
        lines = text.split("\n")[:-1]
        if lines[:1] != [self.wanted.split("\n")[0]] or not set(self.wanted.split("\n")) <= set(lines):
            yield "%s: %r, not %s" % (self.name, text, self.wanted)
        if status != FIRST_STATUS[self.wanted.split()[0]]:
            yield "%s: status %s" % (self.name, status)


class Case(NamedTuple):
    """What the model alone tells: what is got, and what is wanted."""
    name: str
    got: object
    wanted: object

    def failing(self, asked):
        if self.got != self.wanted:
            yield "%s: %s, not %s" % (self.name, self.got, self.wanted)


def numbers(text):
    return [int(word, 16) for word in text.split()]


def policy_of(calls=None, lines=()):
    """A policy of a list of system calls, or without one, and some other lines; empty where it would say nothing."""
    return policy_text(calls, lines) if calls or lines else ""


def script(*lines):
    """A script that changes data, or one of turns."""
    version = 2 if lines and lines[0].startswith("harts") else 1
    return "\n".join(["rvcfi-script %d" % version, *lines, "end", ""]).encode() if lines else None


def pairs(rows):
    """The pairs of rows, each with a name: those that are judged, and what objects become."""
    for row in rows:
        if isinstance(row, Verifies):
            yield row.name, row.built
        elif isinstance(row, (Hardens, Leaves)) and "lean" in row.form and made_of(row.given).told().startswith(b"rewritten "):
            yield row.name, row.given.built


def ask(told_of, rows, asked):
    """Asks rows of the model, or of a program but for those that the model alone tells, and tells how many."""
    is_model, counts = isinstance(asked, Model), Counter()
    for row in rows:
        counts[isinstance(row, Case)] += 1
        failing = list(row.failing(asked)) if is_model or not isinstance(row, Case) else []
        told_of.check(not failing, "\n".join(failing))
    own = ", and %d that are its own" % counts[True] if is_model else ""
    print("rows with literal numbers: %d asked of %s%s" % (counts[False], asked.name, own))
