"""What `rvcfi run` answers, by docs/FORMATS.md and docs/COMMANDS.md: the script's text, the run under it, and the report's text."""

import re
from typing import NamedTuple

from .machine import DATA_END, HANDLERS, Machine

MOST_STEPS = 10**9
NUMBER = r"(0|[1-9][0-9]*)"


class Script(NamedTuple):
    """How many harts run, turns (hart, steps), and changes (step, address, bytes)."""
    harts: int = 1
    turns: list = []
    changes: list = []


class Refused(Exception):
    """A line that is refused, and the reason."""


def matched(pattern, line, number):
    """The words of a line of this form."""
    found = re.fullmatch(pattern, line)
    if not found:
        raise Refused(number, "Form")
    return found.groups()


def is_turn(line):
    return re.fullmatch("turn %s %s" % (NUMBER, NUMBER), line)


def turns_of(lines, number, harts):
    """The turns that stand first among the lines from the one with a number on, and the lines after them."""
    turns = []
    while len(lines) > 1 and is_turn(lines[0]):
        hart, steps = map(int, is_turn(lines[0]).groups())
        if hart >= harts or not 1 <= steps <= MOST_STEPS:
            raise Refused(number, "Range")
        turns.append((hart, steps))
        lines, number = lines[1:], number + 1
    return turns, lines, number


def changes_of(lines, number):
    changes, before = [], 0
    while len(lines) > 1 and lines[0] != "end":
        step, address, digits = matched("at %s ([0-9a-f]{8}) ((?:[0-9a-f]{2}){1,4096})" % NUMBER, lines[0], number)
        step, address, given = int(step), int(address, 16), bytes.fromhex(digits)
        if step > MOST_STEPS or address + len(given) > DATA_END:
            raise Refused(number, "Range")
        if step < before:
            raise Refused(number, "Order")
        changes.append((step, address, given))
        lines, number, before = lines[1:], number + 1, step
    if len(lines) < 2:
        raise Refused(number, "Form")
    if lines[1:] != [""]:
        raise Refused(number + 1, "Form")
    return changes


def script_of(text):
    lines = text.decode("latin-1").split("\n")
    if len(lines) < 2 or lines[0] not in ("rvcfi-script 1", "rvcfi-script 2"):
        raise Refused(1, "Form")
    if lines[0] == "rvcfi-script 1":
        return Script(changes=changes_of(lines[1:], 2))
    if len(lines) < 3:
        raise Refused(2, "Form")
    harts = int(matched("harts " + NUMBER, lines[1], 2)[0])
    if not 1 <= harts <= 8:
        raise Refused(2, "Range")
    turns, rest, number = turns_of(lines[2:], 3, harts)
    return Script(harts, turns, changes_of(rest, number))


def harts_in_turn(turns):
    """The hart of each step; hart 0 goes on after the last turn."""
    for hart, steps in turns:
        for _ in range(steps):
            yield hart
    while True:
        yield 0


class Run:
    """A run of a built program under a script, for at most so many steps: how it stopped, by which hart, after how many steps,
    and each hart's walk."""

    MACHINE = Machine

    def __init__(self, built, script, given, limit):
        self.machine = self.MACHINE(built.version, built.code, built.data, given, script.harts)
        self.walks = [[] for _ in range(script.harts)]
        self.stop, self.hart, self.steps = None, 0, 0
        changes, harts = list(script.changes), harts_in_turn(script.turns)
        while self.steps < limit and not self.stop:
            while changes and changes[0][0] == self.steps:
                _, address, given = changes.pop(0)
                for k, byte in enumerate(given):
                    self.machine.bytes[address + k] = byte
            self.take(built, next(harts))

    def take(self, built, hart):
        """One step of a hart."""
        pc = self.machine.pcs[hart]
        if pc in built.starts:
            self.walks[hart].append(pc)
        self.stop = self.machine.step(hart)
        self.steps += 1
        if self.stop:
            self.hart = hart


def stop_words(stop):
    """How a run stopped, and the program's status."""
    if stop is None:
        return "limit", 12
    kind, at = stop[:2]
    if kind == "exit":
        return "exit %d" % at, 0
    if kind == "break" and at in HANDLERS:
        return "handler " + HANDLERS[at], 10
    if kind == "break":
        return "break %08x" % at, 11
    if kind == "load":
        return "load %08x %016x" % stop[1:], 11
    raise AssertionError("no accepted image stops so: %s at %08x" % (kind, at))


def report(version, run):
    """The status and the text of a run of an image of this version."""
    words, status = stop_words(run.stop)
    output = run.machine.output
    several = version == 2
    lines = ["harts %d" % len(run.walks)] if several else []
    lines += ["stop hart %d %s" % (run.hart, words) if several and run.stop else "stop " + words, "steps %d" % run.steps]
    for hart, walk in enumerate(run.walks):
        name = " %d" % hart if several else ""
        lines += ["walk%s %d" % (name, len(walk)), "trail%s%s" % (name, "".join(" %08x" % at for at in walk[-16:]))]
    return status, b"output %d\n%s\n%s\n" % (len(output), output, "\n".join(lines).encode())


def read_of(version, script):
    """The script of a text, or of None, and the answer by which it is refused of an image of this version."""
    try:
        read = Script() if script is None else script_of(script)
    except Refused as refused:
        return None, b"refused 25 Script %d %s\n" % (refused.args[0], refused.args[1].encode())
    if read.harts > 1 and version == 1:
        return None, b"refused 26 Harts %d\n" % read.harts
    return read, None


def refusal(version, script):
    """The status and the text of a script that is refused of an image of this version, or None."""
    refused = read_of(version, script)[1]
    return refused and (1, refused)


def answer(built, script, given, limit):
    """The status and the text of `rvcfi run`, of an image that is accepted; `script` is a text or None."""
    read, refused = read_of(built.version, script)
    return (1, refused) if refused else report(built.version, Run(built, read, given, limit))
