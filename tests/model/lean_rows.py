"""Images of graphs of version 3 with literal numbers, as they were worked out apart from this model: what objects become, how images
run, and what comparing them with their objects tells. lean_kinds.py says how a row is asked.
"""


from tests.model.forms import coded
from tests.model.hardener import small_object
from tests.model.lean_kinds import Case, Compares, Given, Hardens, Leaves, Runs, Verifies, numbers, policy_of, script
from tests.model.lean_program import NOP
from tests.model.lean_rules import pair_of
from tests.model.lean_walk import HostileRun
from tests.model.links_table import F
from tests.model.lists_tables import Small
from tests.model.program import Built
from tests.model.small_objects import B, CALL_PLT, FUNC, H, HI20, LO12_S, NOTYPE, OBJECT, P, Q, Object
from tests.shared.instructions import EBREAK, ECALL, RETURN, addi, auipc, beq, branch, jalr, jump, ld, lui, sd
from tools.simulator.machine import CODE
from tools.simulator.runs import Script

HEAD = ("00100073 00100073 00100073 10000137 10000237 FFF20213 600001B7 00818193 00C000EF 05D00893 00000073")
HEAD_OF_HARTS = ("00100073 00100073 00100073 10000137 10000237 FFF20213 01451F93 41F10133 600001B7 01051F93 01F181B3 00818193 00C000EF "
                 "05D00893 00000073")
LEAD = "0180006F 03019F13 000F1463 FD1FF06F 0011B023 00818193"  # of an entry behind the prologue of one hart
OPENED, OVER = "call 4000000c 40000030", "edge 4000002c 40000044"  # the lines of the opening and of that lead
LIMIT = 1000000


def raw(words, *lines, version=1, graph=3):
    """A pair of words and lines, whose line of the code is made."""
    heads = ["rvcfi-graph %d" % graph, "code 40000000 %08x" % (4 * len(numbers(words)))]
    return Built(version, numbers(words), b"", "\n".join([*heads, *lines, "end", ""]).encode(), set(), {})


def given(object, form="lean", calls=None, lines=()):
    """An object in a form, under a list of system calls or some lines of a policy."""
    return Given((object.file(),), form, policy_of(calls, lines))


def object_of(*words, form="lean", lines=()):
    """The object that has these words for its code, which is named `main`; and some lines of a policy."""
    return Given((small_object(Small(coded(*words))),), form, policy_of(lines=lines))


def edited(built, words={}, lines={}):
    """A pair with other words, by their offsets, and other lines in place of some."""
    own, text = list(built.words), built.graph.decode()
    for offset, word in words.items():
        own[offset // 4] = word
    for old, new in lines.items():
        assert "\n%s\n" % old in text
        text = text.replace("\n%s\n" % old, "".join("\n" + line for line in new) + "\n")
    return built._replace(words=own, graph=text.encode())


def frame(*words):
    """Saves x1 on the stack around some words, and returns."""
    return [addi(2, 2, -16), sd(1, 2, 8), *words, ld(1, 2, 8), addi(2, 2, 16)]


def alike(name, of, count=1):
    """That comparing what an object becomes with it finds no difference."""
    return Compares(name + ", compared", of, "same %d" % count)


def prologues():
    leaf = "leaf 4000002c 4000003c"
    first = HEAD + " 00700513 05D00893 00000073 FC9FF06F"
    called = "call 4000000c 4000002c"
    yield Verifies("an exit in a leaf range", raw(first, leaf, called), "accepted")
    yield Runs("an exit in a leaf range, run", raw(first, leaf, called),
               ["stop exit 7", "steps 9", "walk 4", "trail 4000000c 4000002c 40000030 40000034"], limit=100)
    yield Verifies("an entry that neither enters nor is a leaf", raw(first, called), "rejected Target 4000000c")
    yield Verifies("a leaf range that ends before a stop", raw(first, "leaf 4000002c 40000038", called), "rejected Leaf 40000034")
    second = raw(HEAD_OF_HARTS + " 03019F13 000F1463 FC5FF06F 0011B023 00818193 00700513 05D00893 00000073 FA5FF06F", "call 4000000c 4000003c",
                 version=2)
    yield Verifies("an exit behind an enter, for several harts", second, "accepted")
    yield Runs("an exit behind an enter, for several harts, run", second,
               ["harts 1", "stop hart 0 exit 7", "steps 17", "walk 0 5", "trail 0 4000000c 4000003c 40000050 40000054 40000058"], limit=100)
    yield Verifies("a leaf line in a graph of version 1", raw(first, leaf, called, graph=1), "refused 23 Graph 3 Form")
    yield Verifies("a leaf line in a graph of version 2", raw(first, leaf, called, graph=2), "refused 23 Graph 3 Form")
    for graph in 1, 2:
        yield Verifies("the prologue of version 3 under a graph of version %d" % graph, raw(first, called, graph=graph),
                       "rejected Prologue 40000010")
    yield Verifies("the prologue of one hart in an image of several", raw(first, leaf, called, version=2), "rejected Prologue 40000018")
    older = ("00100073 00100073 00100073 10000137 600001B7 00818193 03019F13 000F1463 FE9FF06F 00000F17 014F0F13 01E1B023 00818193 00C000EF "
             "05D00893 00000073 00700513 05D00893 00000073 FB5FF06F")
    yield Verifies("the prologue of version 1 under a graph of version 1", raw(older, "call 4000000c 40000040", graph=1), "accepted")
    yield Verifies("the prologue of version 1 under a graph of version 3", raw(older, "call 4000000c 40000040"), "rejected Prologue 40000010")
    yield Verifies("a class of both sorts in a graph of version 3", raw(older, "class 00001", "call 4000000c 40000040"),
                   "refused 23 Graph 3 Form")
    yield Compares("a map that begins before the units", given(B), "refused 24 Map 2 Range",
                   map=b"rvcfi-map 2 lean\nat 40000028 0001 00000000\nend\n")


def small_ones():
    """Objects of few instructions."""
    name, of = "an entry that is a leaf", object_of(RETURN)
    yield Hardens(name, of, "rewritten code 52 data 0 classes 0 sites 0", {0: HEAD + " 00008067 FD1FF06F"},
                  ["code 40000000 00000034", "leaf 4000002c 40000030", "call 4000000c 4000002c"],
                  map="rvcfi-map 2 lean\nat 4000002c 0001 00000000\nat 40000030 0001 00000004\nend\n")
    yield Runs(name + ", run", of, ["stop exit 0", "steps 9", "walk 3", "trail 4000000c 4000002c 40000024"])
    yield alike(name, of)
    name, of = "an entry that saves, and a short mask", object_of(*frame(), RETURN)
    yield Hardens(
        name, of, "rewritten code 112 data 0 classes 0 sites 0",
        {0x20: "010000EF 05D00893 00000073 " + LEAD + " FF010113 00417FB3 001FB423 00813083 01010113 FF81BF83 FF818193 001F8463 FA1FF06F "
               "000F8067 F95FF06F"},
        ["code 40000000 00000070", OPENED, OVER], "2c 48 50 54 58 6c")
    yield Runs(name + ", run", of, ["stop exit 0", "steps 21", "walk 8",
               "trail 4000000c 40000030 40000044 40000048 40000050 40000054 40000058 40000024"])
    yield alike(name, of)
    of = object_of(sd(1, 2, -8), ld(1, 2, -8), RETURN)
    yield Hardens("a long mask", of, "rewritten code 108 data 0 classes 0 sites 0", {0x44: "FF810F93 004FFFB3 001FB023 FF813083"},
                  gates="2c 50 54 68")
    yield Runs("a long mask, run", of, ["stop exit 0", "steps 20", "walk 6"])
    yield alike("a long mask", of)


def groups():
    """Stores behind one mask."""
    name, of = "a group behind a short mask", object_of(addi(2, 2, -32), sd(1, 2, 24), sd(8, 2, 16), ld(1, 2, 24), addi(2, 2, 32), RETURN)
    yield Hardens(name, of, "rewritten code 116 data 0 classes 0 sites 0", {0x48: "00417FB3 001FBC23 008FB823"}, gates="2c 48 50 54 58 5c 70")
    yield Runs(name + ", run", of, ["stop exit 0", "steps 22", "walk 8"])
    yield alike(name, of)
    yield Verifies("a later store below the masked address", edited(of.built, {0x50: 0x800FB823}), "rejected Unit 40000050")
    yield Verifies("a first store below the masked address", edited(of.built, {0x4C: 0x800FBC23}), "rejected Unit 40000048")
    name, of = "a group behind a long mask", object_of(sd(1, 2, -8), sd(8, 2, -16), sd(9, 2, -24), ld(1, 2, -8), RETURN)
    yield Hardens(name, of, "rewritten code 116 data 0 classes 0 sites 0", {0x44: "FE810F93 004FFFB3 001FB823 008FB423 009FB023"},
                  gates="2c 50 54 58 5c 70")
    yield Runs(name + ", run", of, ["stop exit 0", "steps 22", "walk 6"])
    yield alike(name, of)
    name, of = "a negative store behind a short group", object_of(
        addi(2, 2, -32), sd(1, 2, 8), sd(8, 2, 16), sd(9, 2, -8), sd(10, 2, 0), ld(1, 2, 8), RETURN)
    yield Hardens(name, of, "rewritten code 128 data 0 classes 0 sites 0",
                  {0x48: "00417FB3 001FB423 008FB823 FF810F93 004FFFB3 009FB023 00AFB423"}, gates="2c 48 50 54 60 64 68 7c")
    yield Runs(name + ", run", of, ["stop exit 0", "steps 25", "walk 8"])
    yield alike(name, of)


def relocated():
    """Stores one of which takes its offset from a relocation."""
    whole = Object("RELOCATED", [([word], "", "") for word in (lui(5, 0), sd(6, 5, 0), sd(7, 5, 8), sd(8, 5, 16), RETURN)],
                   [("main", FUNC, 1, 0, 20), ("buf", OBJECT, 2, 8, 24)], [(0, HI20, "buf"), (4, LO12_S, "buf")], bytes(32), 3)
    of = given(whole)
    yield Hardens("a relocated store", of, "rewritten code 80 data 32 classes 0 sites 0",
                  {0x2C: "000102B7 00828F93 004FFFB3 006FB023 0042FFB3 007FB423 008FB823 00008067 FB5FF06F"},
                  ["code 40000000 00000050", "leaf 4000002c 4000004c", "call 4000000c 4000002c"], "2c 30 3c 44 48 4c")
    yield Runs("a relocated store, run", of, ["stop exit 0", "steps 16", "walk 6"])
    yield alike("a relocated store", of)


ENTERED = frame(jump(1, 16))[:3] + [ld(1, 2, 8), addi(2, 2, 16), addi(10, 10, 2), addi(10, 10, 1), RETURN]


def calls():
    """Calls of leaves and of functions that save, and what makes no leaf."""
    name, of = "a leaf that is called", given(H)
    yield Hardens(
        name, of, "rewritten code 148 data 3 classes 0 sites 0",
        {0x44: "FF010113 00417FB3 001FB423 024000EF 00000513 00813083 01010113 FF81BF83 FF818193 001F8463 F99FF06F 000F8067 C0010597 F8C58593 "
               "00100513 00300613 04000893 00000073 00008067 F71FF06F"},
        ["code 40000000 00000094", "leaf 40000074 40000090", OPENED, OVER, "call 40000050 40000074"], data="68690a")
    yield Runs(name + ", run", of, ["stop exit 0", "output 3", "hi", "steps 30", "walk 17"])
    yield alike(name, of, 2)
    name, of = "a call of an enter, and a place that goes on into an entry", object_of(*ENTERED)
    yield Hardens(
        name, of, "rewritten code 148 data 0 classes 0 sites 0",
        {0x50: "014000EF 00813083 01010113 00250513 0180006F 03019F13 000F1463 F9DFF06F 0011B023 00818193 00150513"},
        ["code 40000000 00000094", OPENED, OVER, "call 40000050 40000064", "edge 40000060 40000078"], "2c 48 50 54 58 5c 60 7c 90")
    yield Runs(name + ", run", of, ["stop exit 4", "steps 34", "walk 15"])
    yield alike(name, of)
    for name, words, wanted in (
            ("a return and a jump back in a leaf", (addi(10, 0, 1), beq(10, 0, 8), RETURN, jump(0, -8)), ["leaf 4000002c 4000003c"]),
            ("a loop and a system call in a leaf", (addi(10, 10, -1), branch(1, 10, 0, -4), ECALL, RETURN), ["leaf 4000002c 4000003c"]),
            ("no leaf: a word of a label", (lui(0, 1), RETURN), []), ("no leaf: x1 is written", (addi(1, 1, 0), RETURN), []),
            ("no leaf: it goes on to the end", (RETURN, NOP), []), ("no leaf: it breaks at its end", (EBREAK,), []),
            ("a leaf behind a place that is none", (jump(1, 8), RETURN, addi(5, 0, 0), RETURN), ["leaf 4000005c 40000064"])):
        yield Leaves(name, object_of(*words), wanted)


CALLING = jump(1, 8)  # calls the place behind the next one
ENDLESS = Object("ENDLESS", [([auipc(1, 0), jalr(1, 1)], "call", ""), ([NOP], "plain", "")], [("main", FUNC, 1, 0, 12), ("f", NOTYPE, 0, 0, 0)],
                 [(0, CALL_PLT, "f")])


def leaves():
    """Which entries are leaves by what stands before them, what goes there and where they go, and where they end."""
    jumping = jalr(0, 5)
    for name, words, lines, wanted in (
            ("no leaf: it goes elsewhere", (CALLING, RETURN, jump(0, -4)), (), []),
            ("no leaf: it is gone to from elsewhere", (jump(1, 12), beq(10, 0, 8), RETURN, NOP, RETURN), (), []),
            ("a leaf behind a jump", (CALLING, jump(0, -4), RETURN), (), ["leaf 4000004c 40000050"]),
            ("a leaf behind a computed jump", (CALLING, jumping, RETURN), (), ["leaf 40000084 40000088"]),
            ("two leaves, one behind the other", (jump(1, 12), jump(1, 12), RETURN, RETURN, RETURN), (),
             ["leaf 40000060 40000064", "leaf 40000064 40000068"]),
            ("no leaf: a target stands before its return", (CALLING, jumping, NOP, RETURN), ("site main+4 main+c",), []),
            ("a leaf before a target", (CALLING, jumping, RETURN, NOP, RETURN), ("site main+4 main+c",), ["leaf 40000084 40000088"]),
            ("no leaf: a target of computed jumps", (CALLING, jumping, RETURN), ("site main+4 main+8",), [])):
        yield Leaves(name, object_of(*words, lines=lines), wanted)
    yield Leaves("a leaf at the beginning of a section behind one that runs over its end", Given((ENDLESS.file(), F.file()), is_linked=True),
                 ["leaf 40000050 40000058"])


def hostile_run(built):
    """A run under an attacker who clears what the stack keeps of pending sites: how it ends, and what he writes first."""
    done = HostileRun(built, pair_of(built.version, built.words, built.graph), Script(), b"", LIMIT)
    return done.failure, done.stop, done.steps, done.record


def computed_calls():
    """A call through a pointer."""
    name, of = "a computed call", given(P)
    yield Hardens(
        name, of, "rewritten code 292 data 16 classes 1 sites 1",
        {0x58: "00028F93 FFCFFF93 40000F37 41EF8F33 014F5F13 000F0463 F91FF06F 008FAF03 00001237 03720213 004F0463 F7DFF06F 10000237 FFF20213 "
               "008F80E7", 0xB0: "00000013 01C0006F 00001037 03019F13 000F1463 F45FF06F 0011B023 00818193 00100513"},
        ["code 40000000 00000124", "callclass 00001 400000b0 400000e8", OPENED, OVER, "site 40000058 call 00001", "edge 400000b4 400000d0",
         "edge 400000ec 40000108"], data="b000004000000000e800004000000000")
    yield Runs(name + ", run", of, ["stop exit 1", "steps 46", "walk 15", "trail 4000000c 40000030 40000044 40000048 40000050 40000054 40000058 "
                                    "400000b8 400000bc 400000d0 400000d4 40000094 40000098 4000009c 40000024"])
    yield alike(name, of)
    turned = lambda to: script("at 0 00010000 %s000040" % to)
    yield Runs(name + " to the other target", of, ["stop exit 2", "steps 46"], turned("e8"))
    yield Runs(name + ": two low bits do not count", of, ["stop exit 1"], turned("b3"))
    for what, to in (("an enter", "bc"), ("a gate", "b8"), ("a jump over it", "b4"), ("an entry", "30"), ("the closing", "24")):
        yield Runs("%s to %s" % (name, what), of, ["stop handler __cfi_bad_target", "steps 27", "walk 8"], turned(to))
    yield Case(name + " whose return address is cleared", hostile_run(of.built), (None, ("break", CODE + 4), 45, [(13, 0x0FFFFFF8)]))
    for what, at, word in (("the mask is half made anew", 0x88, 0x13), ("the mask is not made anew", 0x8C, 0x13),
                           ("it goes to the first word", 0x90, 0x000F80E7), ("it reads the first word", 0x74, 0x000FAF03)):
        yield Verifies("%s: %s" % (name, what), edited(of.built, {at: word}), "rejected Unit 40000058")
    yield Verifies(name + ": another label", edited(of.built, {0x78: 0x00002237}), "rejected Site 40000058")


def computed_jumps():
    """A function that is called and jumped to through pointers."""
    name, of = "a computed jump", given(Q, lines=("site h+0 g+0",))
    yield Hardens(
        name, of, "rewritten code 304 data 16 classes 2 sites 2",
        {0x4C: "00028F93 FFCFFF93 40000F37 41EF8F33 014F5F13 000F0463 F9DFF06F 000FAF03 00002237 03720213 004F0463 F89FF06F 10000237 FFF20213 "
               "000F8067", 0x88: "00002037 00100513",
         0xA4: "00002037 01C0006F 00001037 03019F13 000F1463 F51FF06F 0011B023 00818193 00200513"},
        ["code 40000000 00000130", "callclass 00001 400000a4", "jumpclass 00002 40000088 400000a4", OPENED, OVER, "site 4000004c jump 00002",
         "edge 400000a8 400000c4", "site 400000dc call 00001"], "2c 48 4c 88 90 a4 c8 dc 118 12c")
    yield Runs(name + ", run", of, ["stop exit 1", "steps 33", "walk 9"])
    yield alike(name, of)
    turned = lambda to: script("at 0 00010000 %s000040" % to)
    yield Runs(name + " to an entry", of, ["stop exit 2", "steps 34", "walk 10", "trail 4000000c 40000030 40000044 40000048 4000004c 400000a4 "
               "400000a8 400000c4 400000c8 40000024"], turned("a4"))
    for what, to in ("the jump", "a8"), ("the gate of calls", "ac"), ("the enter", "b0"), ("what is no target", "dc"):
        yield Runs("%s to %s" % (name, what), of, ["stop handler __cfi_bad_target", "steps 24"], turned(to))
    yield Hardens(name + " and a call to the same targets", given(Q), "rewritten code 332 data 16 classes 2 sites 2",
                  has=("callclass 00001 40000088 400000c0", "jumpclass 00002 40000088 400000c0"))


ALL = prologues, small_ones, groups, relocated, calls, leaves, computed_calls, computed_jumps
