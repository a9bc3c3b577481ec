#!/usr/bin/env python3
"""What small objects become in each form of hardening: `python3 tests/model/forms.py [--check] [NAME ..]`.

The programs of small objects, unit by unit, as docs/MACHINE.md has them for one hart and for several, with one label for calls and
jumps and with a label for each: the words of their units, their graphs and their maps. They stand in crates/sample_hardened: many words
of those for one hart with one label are of tables that were worked out by hand or are what binutils made of the sources in tests/units,
and the others are what this prints.

A table has what becomes of an object for one hart, with one label and with a label for each, where they differ. What it becomes for
several harts follows by a rule: units stand 16 bytes later, and words that tell a distance to what stays where it is, a handler or data,
tell 16 less. It is asked of each row in each form whether what follows is what the model makes.
"""

import re
import struct
import sys
from pathlib import Path
from typing import NamedTuple

sys.dont_write_bytecode = True
sys.path.insert(0, str(Path(__file__).resolve().parents[2]))

from tests.model.program import Program
from tests.shared import tables
from tests.shared.instructions import BEQ, BNE, EBREAK, ECALL, SB, SD, SH, SW, addi, branch, i_form, ld, r_form, s_form, u_form
from tests.shared.texts import calls_line
from tests.shared.units import CODE, UNITS

CRATES = Path(__file__).resolve().parents[2] / "crates"


class Form(NamedTuple):
    """The versions of its images and its graphs, and how its maps begin."""
    image: int
    graph: int
    map: str


FORMS = {"plain": Form(1, 1, "rvcfi-map 1"), "harts": Form(2, 1, "rvcfi-map 2 harts"), "split": Form(1, 2, "rvcfi-map 2 split"),
         "harts-split": Form(2, 2, "rvcfi-map 2 harts-split")}


# the forms of graphs of version 3, of which there are no tables
LEAN = {"lean": Form(1, 3, "rvcfi-map 2 lean"), "harts-lean": Form(2, 3, "rvcfi-map 2 harts-lean")}


class Listed(Program):
    """A program whose places are listed: an object's section 1, from offset 0 on."""

    def __init__(self, form, calls):
        super().__init__(form.image, form.graph, calls)
        self.head, self.lines, self.offset = form.map, [], 0

    def labels_of(self, joined, apart):
        """Labels where calls and jumps share them, or where each has its own."""
        return apart if self.graph == 2 else joined

    def place(self, size=4, call=None, jump=None):
        """The next instruction stands here, and has so many bytes in the object; as a target it is led by labels."""
        self.lines.append("at %08x 0001 %08x" % (self.at, self.offset))
        self.offset += size
        if self.graph == 2 and (call or jump):
            self.target(call, jump)
        elif call or jump:
            self.gate(call or jump)

    def function(self, name, call=None, jump=None):
        """A function or label whose first instruction adds to a register or is another word."""
        self.label(name)
        self.place(4, call, jump)

    def words(self, *words):
        for word in words:
            self.place()
            self.plain(word)

    def unit(self, put, *given, size=4):
        self.place(size)
        put(*given)

    def masked(self, rs1, imm, *members, call=None):
        """Stores behind one mask: a later one's place is its own word."""
        self.place(4, call)
        for k in range(1, len(members)):
            self.lines.append("at %08x 0001 %08x" % (self.at + 12 + 4 * k, self.offset))
            self.offset += 4
        self.stores(rs1, imm, members)

    def nowhere(self, kind, label):
        """A class without a target."""
        self.listed(kind + "class" if self.graph == 2 else "class", label)

    def end(self):
        """The end of the section has a stop."""
        self.place()
        self.stop()

    def map(self):
        return "\n".join([self.head, *self.lines, "end", ""])


def pointer(p, rd, imm):
    """Loads a double word of the data."""
    p.words(u_form(0x37, rd, 0x10), ld(rd, rd, imm))


def begin(p):
    """Saves the address to which a function returns."""
    p.words(addi(2, 2, -16))
    p.unit(p.store, SD, 1, 8, 2)


def restore(p):
    p.words(ld(1, 2, 8), addi(2, 2, 16))


def answer(p, name, word, call=None, jump=None):
    """A function of one instruction and a return."""
    p.function(name, call, jump)
    p.plain(word)
    p.unit(p.returns)


def returning(p):
    p.label("main")
    p.words(addi(10, 0, 7))
    p.unit(p.returns)
    p.end()


def calling(p, label=1, second=addi(10, 0, 2), narrow=False):
    """Calls one of two functions through the pointer at 10000h."""
    p.label("main")
    begin(p)
    pointer(p, 5, 0)
    p.unit(p.icall, 5, 0, label)
    restore(p)
    p.unit(p.returns)
    answer(p, "f", addi(10, 0, 1), call=label)
    answer(p, "g", second, call=None if narrow else label)
    p.end()


def writing(p):
    """Writes three bytes of its data."""
    p.label("main")
    begin(p)
    p.unit(p.call, "puts", size=8)
    p.words(addi(10, 0, 0))
    restore(p)
    p.unit(p.returns)
    p.label("puts")
    above = p.at - 0x10000
    p.words(u_form(0x17, 11, -above // 0x1000 + 1 & 0xFFFFF), addi(11, 11, 0x1000 * (above // 0x1000) - above))
    p.words(addi(10, 0, 1), addi(12, 0, 3), addi(17, 0, 64))
    p.unit(p.ecall)
    p.unit(p.returns)
    p.end()


def recursive(p, first):
    """Calls itself, after three instructions."""
    p.label("main")
    first(p)
    p.label("rec")
    p.unit(p.near, BEQ, 10, 0, "done")
    begin(p)
    p.words(addi(10, 10, -1))
    p.unit(p.call, "rec")
    restore(p)
    p.label("done")
    p.unit(p.returns)
    p.end()


def to_rec(p):
    p.words(u_form(0x37, 10, 2), addi(10, 10, -2))
    p.unit(p.jump, "rec")


def over(p):
    """A branch over an addition."""
    p.unit(p.near, BEQ, 10, 0, "on")
    p.words(addi(10, 0, 1))
    p.label("on")
    p.unit(p.returns)


def kept(p):
    """A branch over a jump, which is not short."""
    p.unit(p.branch, BNE, 10, 0, "on")
    p.unit(p.jump, "on")
    p.label("on")
    p.unit(p.returns)


def nowhere(p):
    """A computed call where no address is taken."""
    p.label("main")
    p.nowhere("call", 1)
    p.unit(p.icall, 5, 0, 1)
    p.unit(p.returns)
    p.end()


def turned(p):
    """A computed jump and a computed call where no address is taken."""
    call, jump = p.labels_of((2, 1), (1, 2))
    p.label("main")
    p.nowhere("call", call)
    p.nowhere("jump", jump)
    p.unit(p.ijump, 6, 0, jump)
    p.unit(p.icall, 5, 0, call)
    p.end()


def jumping(p, call=True):
    """Jumps through the pointer at 10000h, and has a call that may go to the second of the two functions, or nowhere."""
    by_call, by_jump = p.labels_of((1, 1) if call else (2, 1), (1, 2))
    p.label("main")
    pointer(p, 5, 0)
    p.unit(p.ijump, 5, 0, by_jump)
    answer(p, "f", addi(10, 0, 1), jump=by_jump)
    answer(p, "g", addi(10, 0, 2), call=by_call if call else None, jump=by_jump)
    p.label("h")
    if not call:
        p.nowhere("call", by_call)
    p.unit(p.icall, 5, 0, by_call)
    p.unit(p.returns)
    p.end()


def both_ways(p, called, jumped, both):
    """Calls through one pointer and jumps through another one: of each of three functions, whether it is a call's target and
    whether it is a jump's."""
    call, jump = p.labels_of((1, 1), (1, 2))
    p.label("main")
    begin(p)
    pointer(p, 5, 0)
    p.unit(p.icall, 5, 0, call)
    restore(p)
    pointer(p, 5, 8)
    p.unit(p.ijump, 5, 0, jump)
    for name, number, (by_call, by_jump) in ("called", 1, called), ("jumped", 2, jumped), ("both", 4, both):
        answer(p, name, addi(10, 10, number), call if by_call else None, jump if by_jump else None)
    p.end()


def sorts(p):
    """Two calls and two jumps, one of each without a target, and a word of its own that is label 2's."""
    call, no_call, jump, no_jump = p.labels_of((1, 4, 3, 5), (1, 3, 4, 5))
    p.label("main")
    p.nowhere("call", no_call)
    p.nowhere("jump", no_jump)
    pointer(p, 5, 0)
    p.unit(p.icall, 5, 0, call)
    p.unit(p.icall, 6, 0, no_call)
    p.unit(p.ijump, 5, 0, jump)
    p.function("f", call=call)
    p.ijump(6, 0, no_jump)
    answer(p, "g", u_form(0x37, 0, 2), jump=jump)
    p.end()


def switching(p):
    """Calls a function twice that jumps by a table, first to a return and then to a tail call through a pointer; then calls
    through a pointer."""
    call, jump = p.labels_of((1, 1), (1, 2))
    p.label("main")
    begin(p)
    p.unit(p.call, "choose")
    p.unit(p.call, "choose")
    pointer(p, 5, 24)
    p.unit(p.icall, 5, 0, call)
    restore(p)
    p.unit(p.returns)
    p.label("choose")
    p.words(i_form(0x13, 1, 5, 10, 3), u_form(0x37, 6, 0x10), r_form(0x33, 0, 0, 5, 5, 6), ld(5, 5, 0))
    p.unit(p.ijump, 5, 0, jump)
    answer(p, "first", addi(10, 10, 1), jump=jump)
    p.function("second", jump=jump)
    p.plain(u_form(0x37, 5, 0x10))
    p.words(ld(5, 5, 16))
    p.unit(p.ijump, 5, 0, jump)
    answer(p, "f", addi(10, 10, 10), call, jump)
    answer(p, "g", addi(10, 10, 5), call, jump)
    p.end()


def saving(p):
    """Two stores behind one mask."""
    p.label("main")
    p.words(addi(2, 2, -32))
    p.masked(2, 16, (SD, 1, 8), (SD, 8, 0))
    p.words(ld(1, 2, 24), addi(2, 2, 32))
    p.unit(p.returns)
    p.end()


def spread(p):
    """Stores whose offsets are as far apart as they may be behind one mask, and those that are a byte further apart."""
    p.label("main")
    p.words(u_form(0x37, 5, 0x20))
    p.masked(5, -2048, (SD, 6, 0), (SB, 6, 2047))
    p.words(NOP)
    p.masked(5, -2048, (SB, 6, 2047), (SD, 6, 0))
    p.words(NOP)
    p.masked(5, -2048, (SW, 6, 0))
    p.masked(5, 0, (SW, 6, 0))
    p.words(NOP)
    p.masked(5, 0, (SH, 6, 0))
    p.masked(5, -2048, (SH, 6, 0))
    p.words(NOP)
    p.masked(5, -1000, (SD, 6, 2000), (SD, 6, 0), (SD, 6, 2047))
    p.masked(5, 1048, (SD, 6, 0))
    p.masked(5, -1000, (SD, 6, 0), (SD, 6, 1))
    p.unit(p.returns)
    p.end()


def many(p):
    """Eighteen stores, sixteen and seventeen, of which sixteen stand behind one mask."""
    p.label("main")
    p.words(addi(2, 2, -32))
    p.masked(2, 0, *[(SB, 6, k) for k in range(16)])
    p.masked(2, 16, (SB, 6, 0), (SB, 6, 1))
    p.words(NOP)
    p.masked(2, 0, *[(SB, 6, 15 - k) for k in range(16)])
    p.words(NOP)
    p.masked(2, 1, *[(SB, 6, 15 - k) for k in range(16)])
    p.masked(2, 0, (SB, 6, 0))
    p.words(addi(2, 2, 32))
    p.unit(p.returns)
    p.end()


def bases(p):
    """Stores off two registers in turn, off x0, and with an instruction between them."""
    p.label("main")
    p.words(u_form(0x37, 5, 0x20))
    p.masked(2, -8, (SD, 6, 0))
    p.masked(5, 8, (SD, 6, 0))
    p.masked(2, -24, (SD, 2, 8), (SD, 5, 0))
    p.masked(5, 16, (SD, 5, 0))
    p.masked(0, 24, (SD, 6, 0), (SW, 5, 8))
    p.masked(2, -32, (SD, 6, 0))
    p.words(addi(6, 6, 1))
    p.masked(2, -40, (SD, 6, 0))
    p.unit(p.returns)
    p.end()


def aimed(p):
    """A branch over stores, and one back to the second of them."""
    p.label("main")
    p.unit(p.near, BNE, 10, 0, "out")
    p.masked(2, -8, (SD, 6, 0))
    p.label("again")
    p.masked(2, -24, (SD, 6, 8), (SD, 6, 0))
    p.unit(p.near, BNE, 10, 0, "again")
    p.label("out")
    p.unit(p.returns)
    p.end()


def led(p, inner=None, is_entry=False):
    """Stores to which a jump, a branch and a call lead, at which a function begins that is called through a pointer, whose place
    is in the data, and, where it is a target or the entry, at which a symbol stands."""
    p.label("main")
    p.words(addi(2, 2, -64))
    if inner or is_entry:
        p.masked(2, 56, (SD, 1, 0))
        p.label("inner")
        p.masked(2, 48, (SD, 8, 0), call=inner)
    else:
        p.masked(2, 48, (SD, 1, 8), (SD, 8, 0))
    pointer(p, 5, 0)
    p.unit(p.icall, 5, 0, 1)
    p.unit(p.near, BEQ, 10, 0, "branched")
    p.unit(p.jump, "jumped")
    p.masked(2, 0, (SD, 6, 0))
    p.label("jumped")
    p.masked(2, 8, (SD, 6, 0))
    p.label("branched")
    p.masked(2, 16, (SD, 6, 0), (SD, 7, 8))
    p.label("taken")
    p.masked(2, 32, (SD, 7, 0), (SD, 7, 8))
    p.unit(p.call, "called")
    p.words(ld(1, 2, 56), ld(8, 2, 48), addi(2, 2, 64))
    p.masked(2, -8, (SD, 1, 0))
    p.label("f")
    p.masked(2, -24, (SD, 1, 8), (SD, 8, 0), call=1)
    p.label("called")
    p.masked(2, -40, (SD, 8, 8), (SD, 8, 0))
    p.words(addi(10, 10, 1))
    p.unit(p.returns)
    p.end()


def patched(p):
    """Stores whose offsets come from relocations, each behind a mask of its own, and others in twos."""
    p.label("main")
    p.words(u_form(0x37, 5, 0x10))
    p.masked(5, 0, (SD, 6, 0))
    p.masked(5, 8, (SD, 7, 0))
    p.masked(5, 16, (SD, 7, 0), (SD, 7, 8))
    p.masked(5, 0, (SD, 6, 0))
    distance = 0x10008 - p.at
    p.words(u_form(0x17, 5, distance + 0x800 >> 12 & 0xFFFFF))
    p.masked(5, (distance + 0x800 & 0xFFF) - 0x800, (SD, 6, 0))
    p.masked(5, 0, (SD, 0, 8), (SD, 0, 0))
    p.unit(p.returns)
    p.end()


def asking(p):
    """Makes the system call whose number stands at 10000h."""
    p.label("main")
    p.words(u_form(0x37, 5, 0x10), ld(17, 5, 0))
    p.unit(p.ecall)
    p.unit(p.returns)
    p.end()


def ending(p):
    """Ends with a status; behind that a break, and a call that is the last instruction."""
    p.label("main")
    p.words(addi(17, 0, 94), addi(10, 0, 3))
    p.unit(p.ecall)
    p.words(EBREAK)
    p.unit(p.ecall)
    p.end()


def around(p):
    """Branches over a system call and back to it, between stores and before them."""
    p.label("main")
    p.words(addi(17, 0, 64), addi(10, 0, 2))
    p.unit(p.near, BEQ, 10, 0, "over")
    p.masked(2, -16, (SD, 6, 8), (SD, 7, 0))
    p.label("again")
    p.unit(p.ecall)
    p.masked(2, -32, (SD, 6, 8), (SD, 7, 0))
    p.unit(p.near, BEQ, 10, 0, "again")
    p.label("over")
    p.unit(p.returns)
    p.end()


def product(p):
    """Makes the system call whose number is a product."""
    p.label("main")
    p.words(addi(5, 0, 9), addi(6, 0, 7), MUL_17)
    p.unit(p.ecall)
    p.unit(p.returns)
    p.end()


def asked(p):
    """Calls one of two functions through a pointer, the second of which begins with a system call."""
    p.label("main")
    begin(p)
    pointer(p, 5, 0)
    p.unit(p.icall, 5, 0, 1)
    restore(p)
    p.unit(p.returns)
    answer(p, "f", addi(10, 0, 1), call=1)
    p.label("g")
    p.place(4, 1)
    p.ecall()
    p.unit(p.returns)
    p.end()


class Row(NamedTuple):
    """The name of its tables, the object with its change, and what makes it; its entry, its policy, its pointers or its data, and
    its list of system calls."""
    name: str
    object: str
    make: object
    entry: str = "main"
    policy: object = None
    pointers: tuple = ()
    data: str = ""
    calls: object = None

    def policy_text(self):
        """The text of its policy, empty where it has none."""
        if self.calls is not None:
            return "rvcfi-policy 2\n%s\n%send\n" % (calls_line(self.calls), self.policy or "")
        return "" if self.policy is None else "rvcfi-policy 1\n%send\n" % self.policy

    def given(self):
        text = self.policy_text()
        policy = 'Some(b"%s")' % text.replace("\n", "\\n") if text else "None"
        return 'Given(Source::%s, "%s", %s)' % (self.object, self.entry, policy)


NOP, RETURN, MUL_17 = addi(0, 0, 0), i_form(0x67, 0, 0, 1, 0), r_form(0x33, 0, 1, 17, 5, 6)


def coded(*words):
    """The object that returns with these words for its code."""
    return 'Coded, 0, b"%s"' % struct.pack("<%dI" % len(words), *words).hex()


def stored(rs1, *stores):
    """Stores off a register: of each its width, what it stores, and its offset."""
    return [s_form(funct3, rs1, rs2, offset) for funct3, rs2, offset in stores]


STORES = {
    "SAVING": coded(addi(2, 2, -32), *stored(2, (SD, 1, 24), (SD, 8, 16)), ld(1, 2, 24), addi(2, 2, 32), RETURN),
    "SPREAD": coded(
        u_form(0x37, 5, 0x20), *stored(5, (SD, 6, -2048), (SB, 6, -1)), NOP, *stored(5, (SB, 6, -1), (SD, 6, -2048)), NOP,
        *stored(5, (SW, 6, -2048), (SW, 6, 0)), NOP, *stored(5, (SH, 6, 0), (SH, 6, -2048)), NOP,
        *stored(5, *[(SD, 6, offset) for offset in (1000, -1000, 1047, 1048, -1000, -999)]), RETURN),
    "MANY": coded(
        addi(2, 2, -32), *stored(2, *[(SB, 6, k) for k in range(18)]), NOP, *stored(2, *[(SB, 6, 15 - k) for k in range(16)]), NOP,
        *stored(2, *[(SB, 6, 16 - k) for k in range(17)]), addi(2, 2, 32), RETURN),
    "BASES": coded(
        u_form(0x37, 5, 0x20), *stored(2, (SD, 6, -8)), *stored(5, (SD, 6, 8)), *stored(2, (SD, 2, -16), (SD, 5, -24)),
        *stored(5, (SD, 5, 16)), *stored(0, (SD, 6, 24), (SW, 5, 32)), *stored(2, (SD, 6, -32)), addi(6, 6, 1),
        *stored(2, (SD, 6, -40)), RETURN),
    "AIMED": coded(branch(BNE, 10, 0, 20), *stored(2, (SD, 6, -8), (SD, 6, -16), (SD, 6, -24)), branch(BNE, 10, 0, -8), RETURN),
}
FG, OF_SORTS = ("f", "g"), "site main+8 f+0\nsite main+c\nsite main+10 g+0\nsite f+0\n"
ROWS = [
    Row("B", 'Returning, 0, b""', returning),
    Row("P", 'Calling, 0, b""', calling, pointers=FG),
    Row("H", 'Writing, 0, b""', writing, data="hi\n"),
    Row("R", 'Recursive, 0, b""', lambda p: recursive(p, to_rec)),
    Row("OVER", 'Recursive, 64, b"630405001305100067800000"', lambda p: recursive(p, over)),
    Row("KEPT", 'Recursive, 64, b"630405006f00400067800000"', lambda p: recursive(p, kept)),
    Row("NOWHERE", 'Returning, 64, b"e780020067800000"', nowhere),
    Row("RELABELLED", 'Calling, 104, b"37100000"', lambda p: calling(p, 2, u_form(0x37, 0, 1)), pointers=FG),
    Row("NARROW", 'Calling, 0, b""', lambda p: calling(p, narrow=True), policy="site main+10 f+0\n", pointers=FG),
    Row("F", 'Calling, 0, b""', calling, entry="f", pointers=FG),
    Row("TURNED", 'Coded, 0, b"67000300e7800200"', turned),
    Row("Q", 'Jumping, 0, b""', jumping, policy="site h+0 g+0\n", pointers=FG),
    Row("UNCALLED", 'Jumping, 0, b""', lambda p: jumping(p, False), policy="site h+0\n", pointers=FG),
    Row("APART", 'Apart, 0, b""', lambda p: both_ways(p, (1, 0), (0, 1), (1, 1)),
        policy="site main+10 called+0 both+0\nsite main+24 jumped+0 both+0\n", pointers=("called", "jumped")),
    Row("ALIKE", 'Apart, 0, b""', lambda p: both_ways(p, (1, 1), (1, 1), (0, 0)), pointers=("called", "jumped")),
    Row("SORTS", 'Sorts, 0, b""', sorts, policy=OF_SORTS, pointers=FG),
    Row("TABLE", 'Switching, 0, b""', switching, pointers=("first", "second", "f", "g")),
]
STORING = [
    *[Row(name, STORES[name], make) for name, make in (
        ("SAVING", saving), ("SPREAD", spread), ("MANY", many), ("BASES", bases), ("AIMED", aimed))],
    Row("LED", 'Led, 0, b""', led, pointers=("f", "taken")),
    Row("LED_INNER", 'Led, 0, b""', lambda p: led(p, inner=1), policy="site main+14 f+0 inner+0\n", pointers=("f", "taken")),
    Row("LED_ENTRY", 'Led, 0, b""', lambda p: led(p, is_entry=True), entry="inner", pointers=("f", "taken")),
    Row("PATCHED", 'Patched, 0, b""', patched, data="the first the second and others."),
]
ASKING = coded(u_form(0x37, 5, 0x10), ld(17, 5, 0), ECALL, RETURN)
ENDING = coded(addi(17, 0, 94), addi(10, 0, 3), ECALL, EBREAK, ECALL)
AROUND = coded(
    addi(17, 0, 64), addi(10, 0, 2), branch(BEQ, 10, 0, 28), *stored(2, (SD, 6, -8), (SD, 7, -16)), ECALL,
    *stored(2, (SD, 6, -24), (SD, 7, -32)), branch(BEQ, 10, 0, -12), RETURN)
MOST = (0, 1, 62, 63, 64, 93, 94, 2047)
LISTING = [
    Row("LISTED", 'Writing, 0, b""', writing, data="hi\n", calls=(64,)),
    Row("UNLISTED", 'Writing, 0, b""', writing, data="hi\n", calls=(63,)),
    Row("TWO", 'Writing, 0, b""', writing, data="hi\n", calls=(63, 64)),
    Row("EIGHT", 'Writing, 0, b""', writing, data="hi\n", calls=MOST),
    Row("ASKING", ASKING, asking, calls=(0, 2047)),
    Row("ENDING", ENDING, ending, calls=(94,)),
    Row("AROUND", AROUND, around, calls=(64, 93)),
    Row("PRODUCT", coded(addi(5, 0, 9), addi(6, 0, 7), MUL_17, ECALL, RETURN), product, calls=(63,)),
    Row("ASKED", 'Calling, 104, b"73000000"', asked, calls=(2047,), pointers=FG),
    Row("NO_CALL", 'Calling, 0, b""', lambda p: calling(p, narrow=True), policy="site main+10 f+0\n", calls=(0,), pointers=FG),
]
NO_LINE = ""  # the lines of a policy that has none
VARIED = [
    Row("NO_LINE", 'Calling, 0, b""', calling, policy=NO_LINE, pointers=FG),
    Row("REC", 'Recursive, 0, b""', lambda p: recursive(p, to_rec), entry="rec"),
    Row("NO_BYTES", 'Writing, 556, b"%s"' % struct.pack("<I4Q", 8, 2, 0, 0x80, 0xFEF0000).hex(), writing),
]


class Made(NamedTuple):
    """The words of the units, the offset and the word of the entry's call, the data, the graph and the map."""
    words: list
    call: tuple
    data: bytes
    graph: str
    map: str


def made(row, form):
    p = Listed(form, row.calls)
    row.make(p)
    data = lambda labels: struct.pack("<%dQ" % len(row.pointers), *(labels[name] for name in row.pointers)) or row.data.encode()
    built = p.built(row.entry, data)
    first = (UNITS[form.image] - CODE) // 4
    call = (4 * (first - 3), built.words[first - 3])
    return Made(built.words[first:], call, built.data, built.graph.decode(), p.map())


# What the tables of crates/sample_hardened have, and the rule by which the rest follows.

LATER, DIGITS, WIDTH, PER_LINE = 16, "0123456789abcdefghijklmnopqrstuvwxyz", 120, 10
OBJECTS = {"programs": ("hardened_programs", ROWS + VARIED, "that call, jump, branch or write"),
          "stores": ("storing_programs", STORING, "that store behind one mask"),
          "calls": ("listed_programs", LISTING, "that may make the system calls of a list")}


class Units(NamedTuple):
    """What becomes of an object for one hart, as a table has it: of its graph the lines behind the second, of its map the words from
    each place's gate to the next one's, with a `.` where a place has eight bytes of the object."""
    words: tuple
    call: int
    pointers: tuple
    text: bytes
    classes: int
    sites: int
    graph: str
    digits: str


def units_of(row, form):
    what = made(row, form)
    lines = what.graph.split("\n")
    pointers = struct.unpack("<%dQ" % len(row.pointers), what.data) if row.pointers else ()
    count = lambda *heads: sum(line.split(" ")[0] in heads for line in lines)
    return Units(tuple(what.words), what.call[1], pointers, b"" if pointers else what.data, count("class", "callclass", "jumpclass"),
                 count("site"), "\n".join(lines[2:]), digits_of(what.map))


def digits_of(text):
    places = [(int(at, 16), int(offset, 16)) for at, offset in re.findall("^at (.{8}) 0001 (.{8})$", text, re.M)]
    pairs = [(DIGITS[(after - at) // 4], "." * ((later - offset) // 4 - 1)) for (at, offset), (after, later) in zip(places, places[1:])]
    return "".join(digit + dots for digit, dots in pairs)


def is_distance(before, word):
    """A jump back by less than 2 KiB, which goes to a handler, and what is behind an AUIPC that no call has."""
    return word & 0x801FFFFF == 0x801FF06F or before & 0x7F == 0x17 and before != 0x00000F17


def following(units, form):
    """What a table's row comes to in a form: words and text by the rule, which the crate has too."""
    later = LATER if form.image == 2 else 0
    words = [word - (later << 20) if is_distance(before, word) else word for before, word in zip((0, *units.words), units.words)]
    moved = lambda match: "%08x" % (int(match[0], 16) + later) if int(match[0], 16) >= CODE + 0x40 else match[0]
    graph = "rvcfi-graph %d\ncode 40000000 %08x\n" % (form.graph, UNITS[form.image] - CODE + 4 * len(words))
    lines, at, offset = [form.map], UNITS[form.image], 0
    for digit in units.digits + "0":
        if digit != ".":
            lines.append("at %08x 0001 %08x" % (at, offset))
            at += 4 * DIGITS.index(digit)
        offset += 4
    data = struct.pack("<%dQ" % len(units.pointers), *(pointer + later for pointer in units.pointers)) + units.text
    call = (UNITS[form.image] - CODE - 12, units.call)
    return Made(words, call, data, graph + re.sub(r"\b4[0-9a-f]{7}\b", moved, units.graph), "\n".join([*lines, "end", ""]))


def quoted(graph):
    """A graph's lines between quotes."""
    lines = [""]
    for line in graph.split("\n")[:-1]:
        if len(lines[-1]) + len(line) > WIDTH:
            lines.append("")
        lines[-1] += line + "\\n"
    return '"%s"' % "\\\n            ".join(lines)


def words_in(words, indent):
    rows = [words[k:k + PER_LINE] for k in range(0, len(words), PER_LINE)]
    return "".join("\n" + indent + ", ".join("0x%08x" % word for word in row) + "," for row in rows)


def known():
    """The tables of words of sample_programs: each one's content, and its name."""
    found = re.findall(r"const (\w+): \[u32; \d+\] = \[(.*?)\];", (CRATES / "sample_programs" / "src" / "units.rt").read_text(), re.S)
    return {tuple(int(word, 16) for word in re.findall("0x([0-9a-f]{8})", table)): name for name, table in found}


class Tables:
    """The rows of each table, and words that more than one row has: the table and the name of the first one."""

    def __init__(self):
        self.rows = {name: [(row, units_of(row, FORMS["plain"]), units_of(row, FORMS["split"])) for row in rows]
                     for name, (_, rows, _) in OBJECTS.items()}
        self.known, self.often, seen = known(), {}, {}
        for name, rows in self.rows.items():
            for row, joined, apart in rows:
                for units, end in [(joined, "")] + [(apart, "_APART")] * (joined != apart):
                    if units.words in seen and units.words not in self.known:
                        self.often[units.words] = seen[units.words]
                    seen.setdefault(units.words, (name, row.name + end))


class Module:
    """A table's module: the names that it uses, words that more than one row has, and its rows."""

    def __init__(self, name, tables):
        self.name, self.tables, self.used = name, tables, set()
        self.call, _, self.heading = OBJECTS[name]
        self.rows = [self.row(*each) for each in tables.rows[name]]

    def words(self, words):
        if words in self.tables.known:
            self.used.add(("sample_programs", self.tables.known[words]))
            return "&" + self.tables.known[words]
        if words in self.tables.often:
            module, name = self.tables.often[words]
            if module != self.name:
                self.used.add(("crate::" + module, name))
            return "&" + name
        return "&[%s\n        ]" % words_in(words, " " * 12)

    def units(self, units):
        pointers = ", ".join("0x%08x" % pointer for pointer in units.pointers)
        return 'Units(%s, 0x%08x, &[%s], b"%s", %d, %d,\n            %s,\n            b"%s")' % (
            self.words(units.words), units.call, pointers, units.text.decode().replace("\n", "\\n"), units.classes, units.sites,
            quoted(units.graph), units.digits)

    def row(self, row, joined, apart):
        return "    // %s\n    Program(\n        %s,\n        %s,\n        %s,\n    )," % (
            row.name.lower().replace("_", " "), row.given(), self.units(joined), "None" if joined == apart else "Some(%s)" % self.units(apart))

    def constants(self):
        """The words that more than one row has, the first of them here."""
        for words, (module, name) in self.tables.often.items():
            if module == self.name:
                yield "#[rattlefmt::skip]\npub(crate) const %s: [u32; %d] = [%s\n];\n" % (name, len(words), words_in(words, "    "))

    def uses(self):
        yield "use crate::forms::{Program, Units};"
        yield "use crate::given::{Given, Source};"
        for module in sorted({module for module, _ in self.used}):
            names = sorted(name for other, name in self.used if other == module)
            yield "use %s::%s;" % (module, "{%s}" % ", ".join(names) if len(names) > 1 else names[0])

    def text(self):
        return "\n".join([
            "//! What small objects become %s: tests/model/forms.py at the top of the repository prints this." % self.heading, "",
            *sorted(self.uses()), "", *self.constants(),
            "/// The objects, and what they become. By this call a proof of a test does not go over each row.",
            "pub fn %s() -> &'static [Program] {" % self.call, "    &ROWS", "}", "", "#[rattlefmt::skip]",
            "static ROWS: [Program; %d] = [" % len(self.rows), *self.rows, "];", ""])


def table(name):
    """The module of a table, each row of which comes in each form to what the model makes."""
    every = Tables()
    for row, joined, apart in every.rows[name]:
        for form in FORMS.values():
            if following(apart if form.graph == 2 else joined, form) != made(row, form):
                sys.exit("%s comes to something else, %s" % (row.name, form.map))
    return Module(name, every).text()


TABLES = {name: ("sample_hardened/src/%s.rt" % name, lambda name=name: table(name)) for name in OBJECTS}


if __name__ == "__main__":
    sys.exit(tables.main(__doc__, TABLES))
