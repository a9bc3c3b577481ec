"""What `rvcfi compare` answers, by docs/MACHINE.md, docs/COMMANDS.md and docs/FORMATS.md: the program of an object runs, before it is
hardened, instruction by instruction at the gates of a map, and beside it an image.

The program knows no units: an instruction is its own word with its relocation's value. Where it goes on, links and what computed
transfers may reach are gates.
"""

import re

from tests.model.hardener import low, store_offset
from tests.model.lean_hardener import LeanMaps
from tests.model.maps import MOST_CALLS, Maps
from tests.shared.forms import is_lean, most_steps
from tests.shared.instructions import ECALL
from tests.shared.units import first_unit
from tools.simulator.machine import ALL, BRANCHES, CODE, CODE_SIZE, WINDOW, Machine

LOAD, STORE, SYSTEM, EBREAK = 0x03, 0x23, 0x73, 0x00100073
HANDLERS_END = CODE + 12
ENDING = 93  # the system call behind the entry's return
KINDS = {"call": "callclass", "jump": "jumpclass"}


class Recording(Machine):
    """A machine that keeps its system calls: eight numbers, the last one being the answer, and the bytes that were written."""

    def __init__(self, *given):
        super().__init__(*given)
        self.events = []

    def system_call(self, x):
        asked, before = [x[17], *x[10:16]], len(self.output)
        stop = super().system_call(x)
        self.events.append((*asked, 0 if stop else x[10], self.output[before:]))
        return stop


class SourceRun:
    """The run of a program at the gates at which it was hardened. `end` tells how it ended: ("exit", status) or ("break",); `untame`
    why its next instruction is outside of what is compared, and at which place."""

    def __init__(self, made, entry, given):
        self.made, self.source, self.gates = made, made.source, made.layout.gates
        self.closing = first_unit(made.form.image, made.form.graph) - 8
        self.machine = Recording(made.built.version, b"", made.built.data, given, 1)
        self.x = self.machine.registers[0]
        self.x[1], self.x[2] = self.closing, WINDOW
        first = self.source.named(entry)
        self.at, self.pending = self.source.index[first.section, first.value], []
        self.places = {gate: k for k, gate in enumerate(self.gates)}
        self.steps, self.end, self.untame = 0, None, None

    def run(self, limit):
        while self.steps < limit and not self.end and not self.untame:
            self.step()
        return self

    def step(self):
        """Takes a step, or tells why it is untame. The entry's return is followed by a system call."""
        if self.at is None:
            self.x[17] = ENDING
            self.end = self.machine.system_call(self.x)
            self.steps += 1
            return
        item = self.source.items[self.at]
        word = self.made.patched(self.at, item)
        why = next((name for name, is_so in self.reasons(item, word) if is_so), None)
        if why:
            self.untame = (why, *item.place)
            return
        self.steps += 1
        self.take(item, word)

    def reasons(self, item, word):
        """What would make a step untame, the first of the table first."""
        kind, v = item.kind, self.value(word)
        yield "graph", kind in ("icall", "ijump") and v & ~1 not in self.targets(kind)
        yield "return", kind == "return" and self.x[1] != (self.pending[-1] if self.pending else self.closing)
        yield "window", self.is_outside(word)
        yield "deep", kind in ("call", "icall") and len(self.pending) == MOST_CALLS
        yield "end", item.size == 0
        calls = self.made.flow.calls
        yield "call", word == ECALL and item.size and calls is not None and self.x[17] not in calls

    def value(self, word):
        """What an instruction with an immediate of 12 bits adds up to."""
        return self.x[word >> 15 & 31] + low(word >> 20) & ALL

    def targets(self, kind):
        """The gates that the computed transfer at hand may go to: its class."""
        label = self.made.flow.label[self.at]
        return {self.gates[k] for lead in self.made.flow.leads for k, own in lead.items() if own == label}

    def is_outside(self, word):
        """Whether a load or a store leaves the window, or in a lean form a store's base does."""
        base, opcode = self.x[word >> 15 & 31], word & 127
        if opcode == STORE:
            imm = store_offset(word)
            is_own = self.source.items[self.at].place not in self.source.at
            if self.made.form.graph == 3 and is_own and imm >= 0 and base >= WINDOW:
                return True
            return (base + imm & ALL) + (1 << (word >> 12 & 3)) > WINDOW
        return opcode == LOAD and (base + low(word >> 20) & ALL) + (1 << (word >> 12 & 3)) > WINDOW

    def take(self, item, word):
        """The step of an instruction that is tame."""
        kind, link = item.kind, self.gates[self.at + 1] if self.at + 1 < len(self.gates) else None
        target = self.made.layout.targets[self.at]
        if kind == "branch":
            is_taken = BRANCHES[word >> 12 & 7](self.x[word >> 15 & 31], self.x[word >> 20 & 31])
            self.at = target if is_taken else self.at + 1
        elif kind in ("jump", "ijump"):
            self.at = target if kind == "jump" else self.places[self.value(word) & ~1]
        elif kind in ("call", "icall"):
            self.at = target if kind == "call" else self.places[self.value(word) & ~1]
            self.x[1] = link
            self.pending.append(link)
        elif kind == "return":
            self.at = self.places[self.pending.pop()] if self.pending else None
        else:
            self.execute(word)

    def execute(self, word):
        """An instruction that goes on, or a system instruction, at its word's address."""
        machine, at = self.machine, self.made.layout.words[self.at]
        machine.write(at, 4, word)
        machine.pcs[0] = at
        stop = machine.step(0)
        assert stop is None or stop[0] in ("exit", "break"), stop
        self.end = stop if stop is None or stop[0] == "exit" else ("break",)
        self.at += stop is None


def image_items(image, given, limit):
    """The system calls of an image's undisturbed run of so many steps at most, hart 0 alone, and its end if it ended."""
    machine, stop, steps = Recording(image.version, image.code, image.data, given, 1), None, 0
    while steps < limit and not stop:
        stop, steps = machine.step(0), steps + 1
    if stop is None:
        return machine.events
    own_break = stop[0] == "break" and stop[1] >= HANDLERS_END
    return [*machine.events, "exit %d" % stop[1] if stop[0] == "exit" else "break" if own_break else "stop"]


def item_text(item):
    if isinstance(item, str):
        return item
    return " ".join("%016x" % number for number in item[:-1]) + " " + (item[-1].hex() or "-")


def compared(made, entry, image, given, limit):
    """The status and the text of comparing an object, at the map that it was hardened with, with an image."""
    source = SourceRun(made, entry, given).run(limit)
    items = image_items(image, given, most_steps(form_of(made.map), source.steps))
    if source.untame:
        return 13, "untame %s %d %d\n" % source.untame
    own = list(source.machine.events)
    if source.end:
        own.append("exit %d" % source.end[1] if source.end[0] == "exit" else "break")
        items = items + ["running"] * (len(own) - len(items))
    for index, (one, other) in enumerate(zip(own, items)):
        if one != other:
            return 1, "differs %d\nsource %s\nimage %s\n" % (index, item_text(one), item_text(other))
    return (0, "same %d\n" % len(source.machine.events)) if source.end else (12, "limit\n")


def form_of(text):
    """The form of a map, by its first line."""
    words = text.split(b"\n", 1)[0].decode("latin-1").split(" ")
    return words[2] if words[1:2] == ["2"] else "plain"


def map_fault(made, entry, form, text):
    """The number of the first wrong line of a map in a form and why, or None: `made` knows the program."""
    lines, first, last = text.decode("latin-1").split("\n"), first_unit(made.form.image, made.form.graph), (-1, -1, -1)
    if len(lines) < 2 or lines[0] != made.form.map:
        return "1 Form"
    rows = []
    for number, line in enumerate(lines[1:], 2):
        if line == "end":
            break
        found = re.fullmatch("at ([0-9a-f]{8}) ([0-9a-f]{4}) ([0-9a-f]{8})", line)
        if not found or number == len(lines):
            return "%d Form" % number
        gate, section, offset = (int(digits, 16) for digits in found.groups())
        if gate % 4 or not first <= gate < CODE + CODE_SIZE or offset % 4:
            return "%d Range" % number
        if rows and (gate <= rows[-1][0] or (section, offset) <= rows[-1][1:]):
            return "%d Order" % number
        rows.append((gate, section, offset))
    if lines[number:] != [""]:
        return "%d Form" % (number + 1)
    start = made.source.named(entry)
    maps = (LeanMaps if is_lean(form) else Maps)(made.source, made.flow, made.source.index[start.section, start.value])
    wrong = maps.wrong_line(first, rows)
    return wrong and "%d Place" % wrong
