"""Pairs with one fault each, which `verify` rejects, and of each a run with what the statement says of it.

What is expected was read from the rules of docs/FORMATS.md and from crates/cfi_confined/specs/Confined.antt: the rule that fails, where
the run leaves what is said, and the clauses that fail there (of `Moves` with its row, of `MayStop` with how the step ended). Some
faults do no harm in their run, which is confined; they come last. Most pairs are `base` with a line of its graph or a word changed.
"""

import struct
from typing import NamedTuple, Optional

from tests.model.confined import MOST_PENDING, HartStep
from tests.model.lists_tables import changed as with_words
from tests.model.program import Program
from tests.model.worked import pointers
from tests.shared.instructions import BEQ, BNE, EBREAK, ECALL, LD, RETURN, SD, addi, branch, i_form, jal, ld, s_form, u_form
from tests.shared.units import CODE, UNITS
from tools.simulator.machine import CODE_SIZE, START

NOP = addi(0, 0, 0)
CLOSING = UNITS[1] - 8
POINTERS = 0x10000  # where the data of the programs begin: pointers to f, g and h
CLASS, OTHER = 1, 3  # the labels of f and g, and of h, for calls


class Fault(NamedTuple):
    """What a fault is called, its pair, the rule that fails; the pc and the clauses that fail in its run, or None and none. The run:
    how many harts there are, which of them takes all steps, how many at most, and the double words that are changed before its first."""
    name: str
    built: object
    rule: str
    pc: Optional[int]
    clauses: tuple = ()
    harts: int = 1
    hart: int = 0
    limit: int = 400
    changes: dict = {}

    def steps(self):
        """The steps of the run."""
        given = {at + k: byte for at, value in self.changes.items() for k, byte in enumerate(struct.pack("<Q", value))}
        yield HartStep(self.hart, tuple(given.items()))
        for _ in range(self.limit - 1):
            yield HartStep(self.hart)


def base(version=1, graph=1, calls=None):
    """Goes along each kind of line once, and ends by its entry's return: f is called, f is called and g is jumped to through pointers.
    Under a list of system calls it makes one of its first number."""
    p = Program(version, graph, calls)

    def begin(name, label=None, jump=None):
        p.label(name)
        if label and graph == 2:
            p.target(label, jump)
        elif label:
            p.gate(label)

    going(p, begin, graph)
    p.label("stop")
    p.stop()
    return p.built("main", pointers("f", "g", "h"))


def going(p, begin, jumped, call=lambda: None):
    """Puts the units of `base`, where functions are begun by `begin`, a class of jumps has a label, and more calls stand behind the first."""
    begin("main")
    p.label("near")
    p.near(BEQ, 0, 0, "on")
    p.plain(NOP, NOP)
    p.label("on")
    p.label("long")
    p.branch(BNE, 0, 0, "further")
    p.plain(NOP)
    p.label("further")
    p.plain(NOP)
    p.label("jump")
    p.jump("save")
    p.plain(NOP)
    p.label("save")
    p.plain(addi(2, 2, -16))
    p.label("mask")
    p.store(SD, 1, 8, 2)
    p.label("call")
    p.call("f")
    call()
    p.plain(addi(17, 0, p.calls[0] if p.calls else 5), NOP)
    p.label("ecall")
    p.ecall()
    p.plain(u_form(0x37, 5, 0x10), ld(5, 5, 0))
    p.label("icall")
    p.icall(5, 0, CLASS)
    p.plain(ld(1, 2, 8), addi(2, 2, 16), u_form(0x37, 5, 0x10), ld(5, 5, 8), NOP)
    p.label("ijump")
    p.ijump(5, 0, jumped)
    for name, label, jump in ("f", CLASS, None), ("g", CLASS, jumped), ("h", OTHER, None):
        begin(name, label, jump)
        p.plain(addi(10, 0, 1))
        p.label(name + " returns")
        p.returns()


def small(*units, version=1, calls=None, data=b"", program=None):
    """A program whose units are put by functions of it, and a stop."""
    p = program or Program(version, 1, calls)
    p.label("main")
    for put in units:
        put(p)
    p.label("stop")
    p.stop()
    return p.built("main", data)


def plain(*words):
    return lambda p: p.plain(*words)


def label(name):
    return lambda p: p.label(name)


def call(target):
    return lambda p: p.call(target)


def a_return(p):
    p.returns()


def a_bare_call(target):
    """The last word of a call, as a unit by itself."""
    return lambda p: p.put(1, lambda at: [jal(1, at, p.address(target))])


def patched(built, words):
    """A program with other words at some addresses."""
    return with_words(built, *[(at - CODE, word) for at, word in words.items()])


def relined(built, old=None, *new):
    """A program's graph with other lines in place of one, or without it: behind the classes they stand in the order of their addresses."""
    lines = built.graph.decode().split("\n")[:-2]
    if old:
        lines.remove(old)
    is_head = lambda line: line.startswith(("rvcfi", "code", "calls", "leaf")) or "class " in line
    heads, others = [line for line in lines if is_head(line)], [line for line in lines if not is_head(line)]
    for line in new:
        (heads if is_head(line) else others).append(line)
    others.sort(key=lambda line: line.split(" ")[1])
    return built._replace(graph="\n".join(heads + others + ["end", ""]).encode())


def line(built, at, name):
    """The line of a graph at a label."""
    start = "%s %08x " % (name, built.labels.get(at, at))
    return next(line for line in built.graph.decode().split("\n") if line.startswith(start))


def reclassed(built, old, new):
    """A program with another line in place of a class's, in its place."""
    text = built.graph.decode()
    assert "\n%s\n" % old in text
    return built._replace(graph=text.replace("\n%s\n" % old, "\n%s\n" % new).encode())


def edges(built, at):
    """Faults of edge lines: of a jump, of a branch, and of lines that are others'."""
    jump, save, near, long = (at[name] for name in ("jump", "save", "near", "long"))
    edge = lambda start, to: "edge %08x %08x" % (start, to)
    yield Fault("a jump without its edge line", relined(built, edge(jump, save)), "Unlisted", jump, ("Moves Jal x0",))
    yield Fault("a jump whose edge line has another target", relined(built, edge(jump, save), edge(jump, at["further"])), "Unlisted",
                jump, ("Moves Jal x0",))
    yield Fault("an edge line a word before its jump", relined(built, edge(jump, save), edge(jump - 4, save)), "Unlisted", jump,
                ("Moves Jal x0",))
    yield Fault("a branch over two words without its edge line", relined(built, edge(near, at["on"])), "Unlisted", near, ("Moves Branch",))
    yield Fault("a branch whose edge line has another target", relined(built, edge(near, at["on"]), edge(near, near + 8)), "Unlisted",
                near, ("Moves Branch",))
    yield Fault("a branch of two words without its edge line", relined(built, line(built, "long", "edge")), "Unlisted", long + 4,
                ("Moves Jal x0",))
    borrowing = small(lambda p: p.near(BNE, 0, 0, "far"), label("jump"), lambda p: p.jump("far"), a_return, label("far"), a_return)
    jump = borrowing.labels["jump"]
    yield Fault("a jump along the edge line of the branch before it", relined(borrowing, line(borrowing, "jump", "edge")), "Unlisted", jump,
                ("Moves Jal x0",))
    back = small(plain(addi(17, 0, 5)), label("ecall"), plain(ECALL, NOP), label("back"), lambda p: p.near(BEQ, 0, 0, "ecall"))
    yield Fault("a branch back to a system call", relined(back, line(back, "back", "edge")), "Unlisted", back.labels["back"],
                ("Moves Branch",))
    nine = small(label("guarded"), lambda p: p.guarded(range(9)), a_return, calls=tuple(range(8)))
    yield Fault("a branch to a system call 18 words ahead", nine, "Unit", nine.labels["guarded"] + 4, ("Moves Branch",))


def calls(built, at):
    """Faults of call lines and of direct calls."""
    start, f, opening = at["call"], at["f"], UNITS[1] - 12
    called = "call %08x %08x" % (start, f)
    opened = "call %08x %08x" % (START, at["main"])
    for name, new in (("a call without its call line", []),
                      ("a call whose call line has another target", ["call %08x %08x" % (start, at["g"])]),
                      ("a call line at the call's last word", ["call %08x %08x" % (start + 28, f)])):
        yield Fault(name, relined(built, called, *new), "Unlisted", start + 28, ("Moves Jal x1",))
    yield Fault("an opening without its call line", relined(built, opened), "Unlisted", opening, ("Moves Jal x1",))
    yield Fault("the opening's call line where that of another call would be",
                relined(built, opened, "call %08x %08x" % (opening - 28, at["main"])), "Unlisted", opening, ("Moves Jal x1",))
    bare = small(label("bare"), a_bare_call("f"), a_return, label("f"), a_return)
    begun = bare.labels["bare"]
    yield Fault("a bare call", relined(bare, None, "call %08x %08x" % (begun, bare.labels["f"])), "Unit", begun, ("Moves Jal x1",))
    yield Fault("a call that links to x5", patched(built, {start + 28: jal(5, start + 28, f)}), "Unit", start + 28, ("Moves Jal x5",))
    yield Fault("a computed call that links to x5", patched(built, {at["icall"] + 76: i_form(0x67, 0, 5, 31, 0)}), "Unit",
                at["icall"] + 76, ("Moves Jalr x5",))


def sites(built, at):
    """Faults of site lines: of a computed call and of a computed jump."""
    call, jump = at["icall"], at["ijump"]
    of_call, of_jump = line(built, "icall", "site"), line(built, "ijump", "site")
    for name, new in (("a computed call without its site line", []),
                      ("a computed call whose site line has another class's label", ["site %08x call %05x" % (call, OTHER)]),
                      ("a computed call whose site line has no class's label", ["site %08x call 00009" % call]),
                      ("a computed call whose site line is that of a jump", ["site %08x jump %05x" % (call, CLASS)]),
                      ("a computed call's site line where that of a jump would be", ["site %08x call %05x" % (call + 28, CLASS)])):
        yield Fault(name, relined(built, of_call, *new), "Site", call + 76, ("Moves Jalr x1",))
    for name, new in (("a computed jump without its site line", []),
                      ("a computed jump whose site line has another class's label", ["site %08x jump %05x" % (jump, OTHER)]),
                      ("a computed jump whose site line is that of a call", ["site %08x call %05x" % (jump, CLASS)])):
        yield Fault(name, relined(built, of_jump, *new), "Site", jump + 48, ("Moves Jalr x0",))
    returns = at["f returns"] + 16
    yield Fault("a site line before a return", relined(built, None, "site %08x jump %05x" % (returns - 48, CLASS)), "Site", returns,
                ("Moves Jalr x0",))


def classes(built, at):
    """Faults of class lines; of graphs of version 2 too."""
    f, g = at["f"], at["g"]
    both = "class %05x %08x %08x" % (CLASS, f, g)
    yield Fault("a gate that is no target, of a computed call", reclassed(built, both, "class %05x %08x" % (CLASS, g)), "Astray",
                at["icall"] + 76, ("Moves Jalr x1",))
    yield Fault("a gate that is no target, of a computed jump", reclassed(built, both, "class %05x %08x" % (CLASS, f)), "Astray",
                at["ijump"] + 48, ("Moves Jalr x0",))
    split = base(1, 2)
    f, g, call, jump = (split.labels[name] for name in ("f", "g", "icall", "ijump"))
    of_calls, of_jumps = "class %05x %08x %08x" % (CLASS, f, g), "class 00002 %08x" % g
    yield Fault("a class of jumps for a computed call", reclassed(split, "call" + of_calls, "jump" + of_calls), "Site", call + 76,
                ("Moves Jalr x1",))
    yield Fault("a class of calls for a computed jump", reclassed(split, "jump" + of_jumps, "call" + of_jumps), "Site", jump + 48,
                ("Moves Jalr x0",))
    reads_first = patched(split, {jump + 28: i_form(0x03, 2, 30, 31, 0)})
    yield Fault("a computed jump whose check reads the first word of its destination", reads_first, "Unit", jump + 48,
                ("Moves Jalr x0",), changes={POINTERS + 8: g + 4})


def computed(built, at):
    """Computed transfers without a check, and checks that let pass what they should not."""
    icall, ijump = at["icall"], at["ijump"]
    loaded = plain(u_form(0x37, 5, 0x10), ld(5, 5, 0))
    for name, rd, row in ("a bare computed jump", 0, "Moves Jalr x0"), ("a bare computed call", 1, "Moves Jalr x1"):
        bare = small(loaded, label("bare"), plain(i_form(0x67, 0, rd, 5, 0)), label("f"), a_return, data=pointers("f"))
        yield Fault(name, bare, "Unit", bare.labels["bare"], (row,))
    uncompared = branch(BEQ, 0, 0, 8)
    yield Fault("a jump's check that compares nothing", patched(built, {ijump + 40: uncompared}), "Unit", ijump + 48,
                ("Moves Jalr x0",), changes={POINTERS + 8: at["stop"]})
    yield Fault("a call's check that compares nothing", patched(built, {icall + 40: uncompared}), "Unit", icall + 76,
                ("Moves Jalr x1",), changes={POINTERS: at["save"]})
    yield Fault("a jump behind what was checked", patched(built, {ijump + 48: i_form(0x67, 0, 0, 31, 4)}), "Unit", ijump + 48,
                ("Moves Jalr x0",))
    yield Fault("a jump to another register than the checked one", patched(built, {ijump + 48: i_form(0x67, 0, 0, 5, 0)}), "Unit",
                ijump + 48, ("Moves Jalr x0",), changes={POINTERS + 8: at["g"] + 2})


def past_checks(built, at):
    """Jumps to the last word of a unit, past its check, where x31 has what a mask left there."""
    for name, put, past, row in (("a jump past a computed jump's check", lambda p: p.ijump(5, 0, CLASS), 48, "Moves Jalr x0"),
                                 ("a jump past a computed call's check", lambda p: p.icall(5, 0, CLASS), 76, "Moves Jalr x1"),
                                 ("a jump past a return's test", a_return, 16, "Moves Jalr x0")):
        last = UNITS[1] + 16 + 4 + past
        built = small(lambda p: p.store(SD, 5, 0, 2), lambda p: p.jump(last), put, label("f"), lambda p: p.gate(CLASS))
        yield Fault(name, built, "Target", last, (row,))


def returns(built, at):
    """Returns to another address than that of the newest call."""
    taken = plain(u_form(0x37, 5, 0x10), ld(1, 5, 0))
    bare = small(taken, label("bare"), plain(RETURN), label("f"), a_return, data=pointers("f"))
    yield Fault("a return without its test", bare, "Unit", bare.labels["bare"], ("Moves Jalr x0",))
    moved = small(taken, plain(u_form(0x37, 3, 0x10), addi(3, 3, 16)), label("returns"), a_return, label("f"), a_return,
                  data=lambda labels: struct.pack("<2Q", labels["f"], labels["f"]))
    yield Fault("a return with x3 moved into data", moved, "Unit", moved.labels["returns"] + 16, ("Moves Jalr x0",))
    older = small(call("f"), a_return, label("f"), taken, label("returns"), a_return, data=struct.pack("<Q", CLOSING))
    at_slot = older.labels["returns"]
    yield Fault("a return to the call before the newest", patched(older, {at_slot: i_form(0x03, LD, 31, 3, -16)}), "Unit", at_slot + 16,
                ("Moves Jalr x0",))
    # A call of the third word; a computed jump from there to the second word, where that call would return to; and from there a
    # return to the closing, though that call is still pending.
    u = UNITS[1]
    early = small(plain(jal(1, 0, 8), i_form(0x67, 0, 0, 1, CLOSING - u - 4), RETURN))
    early = relined(early, None, "class 00001 %08x" % (u + 4), "site %08x jump 00001" % (u + 8 - 48), "call %08x %08x" % (u - 28, u + 8))
    yield Fault("a return past a call that is still pending", early, "Unit", u + 4, ("Moves Jalr x0",))


def system_calls(built, at):
    """System calls that may not be made."""
    listed = base(1, 1, (63, 64))
    send = listed.labels["ecall"]
    yield Fault("a system call in the opening", patched(built, {START: ECALL}), "Prologue", START, ("MayEcall",))
    yield Fault("a system call in the opening for several harts", patched(base(2), {START: ECALL}), "Prologue", START, ("MayEcall",), 8, 5)
    unguarded = small(plain(addi(17, 0, 65)), label("ecall"), plain(ECALL), a_return, calls=(63, 64))
    yield Fault("a number that is not in the list", unguarded, "Unit", unguarded.labels["ecall"], ("MayEcall",))
    yield Fault("another list", reclassed(listed, "calls 63 64", "calls 64 65"), "Unit", send + 20, ("MayEcall",))
    yield Fault("a guard that lets each number pass", patched(listed, {send - 8: addi(17, 0, 65), send + 4: branch(BEQ, 0, 0, 16)}), "Unit",
                send + 20, ("MayEcall",))
    unhalting = patched(listed, {send - 8: addi(17, 0, 65), send + 16: NOP})
    yield Fault("a guard that does not halt", unhalting, "Unit", send + 20, ("MayEcall",))
    yield Fault("a closing that does not exit", patched(built, {CLOSING: addi(17, 0, 64)}), "Prologue", CLOSING + 4, ("MayEcall",))
    early = small(plain(addi(17, 0, 93)), a_return)
    yield Fault("a closing that exits a word early", patched(early, {CLOSING: ECALL}), "Prologue", CLOSING, ("MayEcall",))
    exiting = patched(small(plain(addi(17, 0, 93))), {CODE: ECALL})
    yield Fault("a handler that exits", exiting, "Prologue", CODE, ("MayStop Exit", "MayEcall"))
    yield Fault("a handler that makes a system call", patched(small(), {CODE: ECALL}), "Prologue", CODE, ("MayStop Ran", "MayEcall"))


def stops(built, at):
    """Steps that may not run on, or may not stop so."""
    beyond = i_form(0x03, LD, 5, 0, -8)  # loads from the last eight bytes that there are
    yield Fault("a handler that runs on", patched(small(), {CODE: NOP}), "Prologue", CODE, ("MayStop Ran",))
    yield Fault("a handler that loads where nothing is", patched(small(), {CODE: beyond}), "Prologue", CODE, ("MayStop LoadFault",))
    yield Fault("an opening that loads where nothing is", patched(built, {START: beyond}), "Prologue", START, ("MayStop LoadFault",))
    yield Fault("a break in the opening", patched(built, {START: EBREAK}), "Prologue", START, ("MayStop Break",))
    yield Fault("a break in the closing", patched(small(a_return), {CLOSING: EBREAK}), "Prologue", CLOSING, ("MayStop Break",))
    into_code = small(plain(u_form(0x37, 6, 0x40000)), label("store"), plain(s_form(SD, 6, 5, 0)), a_return)
    yield Fault("a store into code", into_code, "Unit", into_code.labels["store"], ("MayStop StoreFault",))
    masked = UNITS[1] + 32 + 4 + 12  # past a call and a jump
    past = small(call("f"), lambda p: p.jump(masked), lambda p: p.store(SD, 5, 0, 2), label("f"), a_return)
    yield Fault("a jump past a mask, where x31 is an address of code", past, "Target", masked, ("MayStop StoreFault",))
    illegal = small(plain(0xFFFFFFFF), a_return)
    yield Fault("a word that is no instruction", illegal, "Unit", UNITS[1], ("MayStop Illegal",))
    endless = Program(1)
    endless.plain(NOP, NOP)
    yield Fault("code without a stop", endless.built(UNITS[1]), "End", endless.at, ("MayStop Illegal",))
    yield Fault("code without a stop that fills its region", full(), "End", CODE + CODE_SIZE, ("MayStop FetchFault",))


def full():
    """Jumps to the last word of a region that is full of code."""
    p, end = Program(1), CODE + CODE_SIZE
    p.jump(end - 4)
    while p.at < end - 4:
        if end - p.at >= 4 * 20:
            p.stores(2, 0, [(SD, 5, 0)] * 16)
        else:
            p.plain(NOP)
    p.plain(NOP)
    return p.built(UNITS[1])


def stores(built, at):
    """Writes outside of data and of the hart's own next slot. What is stored is not what stands there."""
    def bare(upper, offset, version=1):
        return small(plain(u_form(0x37, 6, upper)), label("store"), plain(s_form(SD, 6, 6, offset)), a_return, version=version)
    for name, offset in (("a store over the pending call", 8), ("a store across the pending call and the next slot", 12),
                         ("a store behind the next slot", 24), ("a store across the next slot and what follows", 21)):
        stored = bare(0x60000, offset)
        yield Fault(name, stored, "Unit", stored.labels["store"], ("Writes",))
    others = bare(0x60010, 8, 2)
    yield Fault("a store into another hart's part", others, "Unit", others.labels["store"], ("Writes",), 8)
    yield Fault("an opening that writes another hart's part", patched(base(2), {START + 16: i_form(0x13, 1, 31, 10, 17)}), "Prologue",
                START + 28 + 20, ("Writes",), 8, 1)
    yield Fault("an opening that begins in the second slot", patched(built, {START + 8: addi(3, 3, 16)}), "Prologue", START + 12 + 20,
                ("Writes",))


def deep(version):
    """A program that calls itself, with a test of the depth that is none."""
    return patched(small(call("main"), version=version), {UNITS[version] + 4: branch(BEQ, 0, 0, 8)})


def depths():
    """More calls than the shadow stack has slots."""
    limit = 12 * (MOST_PENDING + 1)
    yield Fault("a call too many", deep(1), "Unit", UNITS[1] + 20, ("MayStop StoreFault",), limit=limit)
    yield Fault("a call too many that writes the next hart's part", deep(2), "Unit", UNITS[2] + 20, ("Writes",), 2, 0, limit)
    bare = small(label("bare"), a_bare_call("bare"))
    at = bare.labels["bare"]
    yield Fault("a call too many that writes nothing", relined(bare, None, "call %08x %08x" % (at - 28, at)), "Unit", at, ("most_calls",),
                limit=limit)
    again = small(lambda p: p.jump(START))  # the opening's call writes the first slot each time, and always the same
    yield Fault("a jump to the opening", again, "Target", UNITS[1] - 12, ("most_calls",), limit=limit)


def harmless(built, at):
    """Faults whose runs are confined: of a line that no step needs, or of words that do what they may."""
    yield Fault("an edge line at a plain word", relined(built, None, "edge %08x %08x" % (at["save"], at["g"])), "Unused", None)
    yield Fault("a target that is no gate", reclassed(built, "class %05x %08x" % (OTHER, at["h"]), "class %05x %08x" % (OTHER, at["stop"])),
                "Gate", None)
    yield Fault("a gate that is no target, to which nothing leads", reclassed(
        built, "class %05x %08x" % (OTHER, at["h"]), "class %05x" % OTHER), "Astray", None)
    yield Fault("a length of other code", reclassed(built, "code %08x %08x" % (CODE, len(built.code)), "code %08x %08x" % (
        CODE, len(built.code) + 4)), "Length", None)
    yield Fault("a jump past a mask, where x31 is an address of data", small(
        lambda p: p.store(SD, 5, 0, 2), lambda p: p.jump(p.at + 4 + 12), lambda p: p.store(SD, 6, 8, 2), a_return), "Target", None)
    yield Fault("a jump to the closing", small(lambda p: p.jump(CLOSING)), "Target", None)
    yield Fault("a store into the next slot", small(plain(s_form(SD, 3, 3, 0)), a_return), "Unit", None)
    yield Fault("a return whose test is none, with the right x1", patched(small(label("return"), a_return), {
        UNITS[1] + 8: branch(BEQ, 0, 0, 8)}), "Unit", None)
    yield Fault("a check that halts", patched(built, {at["icall"] + 36: addi(4, 4, 56)}), "Unit", None)


def faults():
    """All faults."""
    built = base()
    for rows in (edges, calls, sites, classes, computed, past_checks, returns, system_calls, stops, stores):
        yield from rows(built, built.labels)
    yield from depths()
    yield from harmless(built, built.labels)
