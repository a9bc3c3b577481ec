"""What is asked of each call in a case's folder, and the figures over all calls."""

import collections
import os
import random

from tests.fuzz.answers import wrong

KIB = 1 << 10
USUAL, MACHINE = 184 * KIB, 320 * KIB  # bytes of a call without its files, and of a machine's table of pages and the first of them
BASE = {b"run": USUAL + MACHINE, b"compare": USUAL + 2 * MACHINE, b"compare-link": USUAL + 2 * MACHINE}
TIMES, SECONDS, BLOCK = 64, 1, 64 * KIB
COMMANDS = (b"rewrite", b"verify", b"run", b"compare", b"harden", b"link", b"compare-link")
WRITTEN = {b"rewrite": 4, b"harden": 5, b"link": 4}  # at which of its words, from 0, stand the three files that it writes
LIMIT = {b"compare": 7, b"compare-link": 6}  # at which of its words stands STEPS
STEP = 256  # bytes that comparing may hold of the system calls of a step
FOLDER = b"folder"  # a directory that stands beside the files


class Failed(Exception):
    """A call, or what two calls say, is not as it should be."""


def without_dashes(words):
    """The words of a command line without the first `--`."""
    named = list(words)
    if b"--" in named:
        named.remove(b"--")
    return named


def written_by(words, call):
    """The names of the files that a call may write."""
    named = without_dashes(words)
    first = WRITTEN.get(named[0]) if named else None
    return set(named[first:first + 3]) if first and call.status in (0, 4) else set()


def held(named):
    """The bytes that comparing may hold of the system calls of so many steps."""
    at = LIMIT.get(named[0]) if named else None
    steps = named[at] if at and len(named) > at else b""
    return STEP * int(steps) if steps.isdigit() and len(steps) < 8 else 0


def beyond(words, call):
    """The bytes that a call had and that it has neither without files nor of the system calls that it compares."""
    named = without_dashes(words)
    return max(0, call.memory - BASE.get(named[0] if named else b"", USUAL) - held(named))


def too_much(words, call, size):
    """What a call took too much of for so many bytes that it read, printed and wrote, or None."""
    if call.seconds > SECONDS * max(1, size / BLOCK):
        return "it took %.3f seconds for %d bytes" % (call.seconds, size)
    if beyond(words, call) > TIMES * size:
        return "it had %d KiB for %d bytes" % (call.memory // KIB, size)
    return None


def told(call):
    """The first words of an answer, by which answers are counted."""
    words = call.output[:100].decode(errors="replace").split()[:2]
    return " ".join(words if words[:1] in (["refused"], ["rejected"]) else words[:1])


class Figures:
    """What was asked so far, and the greatest of what was measured."""

    def __init__(self):
        self.answers, self.cases = collections.Counter(), collections.Counter()
        self.slowest, self.most, self.largest = (0.0, ""), (0.0, ""), (0.0, "")

    def count(self, case, words, call, size):
        command = words[0].decode() if words and words[0] in COMMANDS else "other words"
        self.answers[command, call.status, told(call)] += 1
        what = "case %s, %s, %d bytes" % (case, command, size)
        self.slowest = max(self.slowest, (call.seconds, what))
        self.most = max(self.most, (call.memory / KIB, what))
        self.largest = max(self.largest, (beyond(words, call) / max(1, size), what))

    def tell(self):
        for (command, status, text), count in sorted(self.answers.items()):
            print("%9d  %-12s %3d  %s" % (count, command, status, text))
        print("%d calls in %d cases" % (sum(self.answers.values()), sum(self.cases.values())))
        print("cases: " + ", ".join("%s %d" % row for row in sorted(self.cases.items())))
        print("slowest: %.3f s (%s)" % self.slowest)
        print("most memory: %.0f KiB (%s)" % self.most)
        print("most memory beyond the usual: %.1f times what was read, printed and written (%s)" % self.largest)


def read(path):
    with open(path, "rb") as file:
        return file.read()


class Case:
    """A case: its random numbers, its files, and the calls that it made."""

    def __init__(self, name, program, folder, figures):
        self.name, self.draw = name, random.Random(name)
        self.program, self.folder, self.figures = program, folder, figures
        self.files, self.calls = {}, []

    def path(self, name):
        return os.path.join(self.folder.encode(), name)

    def put(self, name, content):
        """Writes a file."""
        self.files[name] = content
        with open(self.path(name), "wb") as file:
            file.write(content)

    def names(self):
        return [name for name in os.listdir(self.folder.encode()) if name != FOLDER]

    def clear(self):
        for name in self.names():
            os.remove(self.path(name))

    def size(self, names):
        return sum(len(self.files[name]) for name in set(names) if name in self.files)

    def ask(self, *words):
        """Calls the program on these words, and asks of the call all that is asked of each."""
        words = [word for word in words if b"\0" not in word]
        call = self.program.call(words, self.folder)
        self.calls.append((words, call))
        size = sum(map(len, words)) + len(call.output) + self.size(words[1:])
        changed = self.changed(words, call)
        size += self.size(written_by(words, call))
        self.figures.count(self.name, words, call, size)
        why = wrong(words, call) or changed or too_much(words, call, size)
        self.must(why is None, why)
        return call

    def changed(self, words, call):
        """Which files a call changed that it may not, or None; what stands then are the case's files."""
        now = {name: read(self.path(name)) for name in self.names()}
        others = set(now) | set(self.files)
        others -= written_by(words, call)
        names = [name for name in sorted(others) if now.get(name) != self.files.get(name)]
        self.files = now
        return "it changed %s" % names if names else None

    def must(self, holds, why):
        if not holds:
            raise Failed(why)
