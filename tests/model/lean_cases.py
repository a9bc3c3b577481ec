"""More images of graphs of version 3 with literal numbers: one rule after another, lines of leaf ranges, lists of system calls, harts,
depth, tameness, which units each version has, links, bounds and limits. lean_kinds.py says how a row is asked.
"""


from tests.model.forms import FORMS, LEAN
from tests.model.lean_hardener import LeanMaps
from tests.model.lean_kinds import Case, Compares, Given, Hardens, Runs, Verifies, numbers, script
from tests.model.lean_program import NOP, computed, enter
from tests.model.lean_rows import ENTERED, HEAD, HEAD_OF_HARTS, LIMIT, OPENED, OVER, alike, edited, given, object_of, raw
from tests.model.lean_rules import pair_of
from tests.model.lean_walk import LeanRun
from tests.model.links_table import F, MAIN
from tests.model.lists_tables import program
from tests.model.small_objects import H, P, Q, R, T
from tests.shared.instructions import RETURN, addi, beq, branch, i_form, jump, ld, lui, sd
from tests.shared.units import CODE, check, push
from tools.simulator.runs import Script

LEAF, CALLED = "leaf 40000074 40000090", "call 40000050 40000074"  # of the leaf that is called, and of its call


def written():
    """The pair of an object that calls a leaf."""
    return given(H).built


def spelled(words):
    return " ".join("%08x" % word for word in words)


def stopped(words):
    """Words and a stop."""
    return "%s %s" % (words, spelled([jump(0, -4 * len(numbers(words)))]))


def entered(offset):
    """The words of an enter at an offset."""
    return spelled(enter(CODE + offset))


def cases_of(rule, built, rows):
    """Changes of a pair: of each a name, the words, the lines, and the rule that is told with its address, or None."""
    for name, words, lines, wanted in rows:
        told = "rejected %s" % wanted if wanted else "accepted"
        yield Verifies("%s: %s" % (rule, name), edited(built, words, lines), told)


def units():
    yield from cases_of("Unit", written(), (
        ("a leaf return outside of all ranges", {0x54: 0x00008067}, {}, "Unit 40000054"),
        ("a leaf that writes x1", {0x7C: 0x00008093}, {}, "Unit 4000007c"),
        ("a leaf with a gate", {0x84: 0x00001037}, {}, "Unit 40000084"),
        ("a leaf with a call", {0x84: 0xFADFF0EF}, {}, "Unit 40000084"),
        ("a leaf with a return", {0x84: 0xFF81BF83}, {}, "Unit 40000084"),
        ("a leaf with a break", {0x84: 0x00100073}, {}, None),
        ("no leaf line", {}, {LEAF: ()}, "Unit 4000008c"),
        ("the range ends before the return", {}, {LEAF: ("leaf 40000074 4000008c",)}, "Unit 4000008c"),
        ("a range with an enter", {}, {LEAF: ("leaf 40000030 40000090",)}, "Unit 40000030"),
        ("the range has the stop too", {}, {LEAF: ("leaf 40000074 40000094",)}, None)))


def leaves():
    yield from cases_of("Leaf", written(), (
        ("the range begins within a unit", {}, {LEAF: ("leaf 40000070 40000090",)}, "Leaf 40000070"),
        ("the range begins a unit late", {}, {LEAF: ("leaf 40000078 40000090",)}, "Leaf 40000074"),
        ("the closing is a range", {}, {LEAF: ("leaf 40000024 40000028", LEAF)}, "Leaf 40000024"),
        ("two ranges", {}, {LEAF: ("leaf 40000074 40000080", "leaf 40000080 40000090")}, "Leaf 4000007c"),
        ("a saved start falls into an enter", {0x2C: 0x13}, {}, "Leaf 4000002c"),
        ("a leaf goes on", {0x8C: 0x13}, {}, "Leaf 4000008c"),
        ("a leaf ends with a system call", {0x8C: 0x73}, {}, "Leaf 4000008c"),
        ("a leaf ends with a break", {0x8C: 0x00100073}, {}, None)))
    behind = lambda words: stopped(HEAD + " " + words)
    opened = "call 4000000c 4000002c"
    yield Verifies("Leaf: the range ends within a unit", raw(behind("00008067 0042FFB3 005FB823"), "leaf 4000002c 40000034", opened),
                   "rejected Leaf 4000002c")
    yield Verifies("Leaf: an enter before a leaf", raw(behind(entered(0x2C) + " 00008067"), "leaf 40000040 40000044", opened),
                   "rejected Leaf 4000002c")
    for name, word in ("a call", "FF9FF0EF"), ("a gate", "00001037"):
        yield Verifies("Leaf: %s before a gate of an enter" % name, raw(
            behind("00008067 %s 00001037 %s" % (word, entered(0x38))), "leaf 4000002c 40000030", opened), "rejected Leaf 40000030")


def targets():
    built, opening = written(), lambda to: {OPENED: ("call 4000000c 400000%s" % to,)}
    call = lambda to: {CALLED: ("call 40000050 400000%s" % to,)}
    yield from cases_of("Target", built, (
        ("a call into a leaf", {0x50: 0x028000EF}, call("78"), "Target 40000050"),
        ("a call past an enter", {0x50: 0xFF5FF0EF}, call("44"), "Target 40000050"),
        ("a call of a lead", {0x50: 0xFDDFF0EF}, call("2c"), "Target 40000050"),
        ("a call of an enter", {0x50: 0xFE1FF0EF}, call("30"), None),
        ("a jump to an enter", {0x2C: 0x0040006F}, {OVER: ("edge 4000002c 40000030",)}, "Target 4000002c"),
        ("a jump into a leaf", {0x54: 0x0200006F}, {CALLED: (CALLED, "edge 40000054 40000074")}, "Target 40000054"),
        ("a jump out of a leaf", {0x78: 0xFCDFF06F}, {CALLED: (CALLED, "edge 40000078 40000044")}, "Target 40000078"),
        ("a jump within a leaf", {0x78: 0x0100006F}, {CALLED: (CALLED, "edge 40000078 40000088")}, None),
        ("the opening goes past an enter", {0x20: 0x024000EF}, opening("44"), "Target 4000000c"),
        ("the opening calls the closing", {0x20: 0x004000EF}, opening("24"), "Target 4000000c"),
        ("the opening calls a leaf", {0x20: 0x054000EF}, opening("74"), None)))
    words = stopped(HEAD + " 0040006F 00008067")
    lines = "call 4000000c 4000002c", "edge 4000002c 40000030"
    yield Verifies("Target: a jump from one leaf to another", raw(words, "leaf 4000002c 40000030", "leaf 40000030 40000034", *lines),
                   "rejected Target 4000002c")
    yield Verifies("Target: a jump within one leaf", raw(words, "leaf 4000002c 40000034", *lines), "accepted")


def gates():
    line = "callclass 00001 400000b0 400000e8"
    other = lambda *targets: {line: ("callclass 00001" + "".join(" 400000" + to for to in targets),)}
    yield from cases_of("Gate and Astray", given(P).built, (
        ("a target of calls without a gate", {}, other("b0", "e8", "ec"), "Gate 400000ec"),
        ("a target of calls at its gate", {}, other("b8", "e8"), "Gate 400000b8"),
        ("a gate of calls that is no target's", {}, other("b0"), "Astray 400000f0"),
        ("no gate before an enter", {0xB8: 0x13}, {}, "Leaf 400000b8"),
        ("a gate of another label", {0xB8: 0x00002037}, {}, "Gate 400000b0"),
        ("a second gate behind an enter", {0xD0: 0x00001037}, {}, "Astray 400000d0"),
        ("a gate of calls behind which no enter stands", {0xD0: 0x00001037}, other("b0", "c8", "e8"), "Gate 400000c8"),
        ("a gate of calls at a target", {0xB0: 0x00001037}, {}, "Astray 400000b0"),
        ("a gate of no class at a target", {0xB0: 0x00002037}, {}, None)))
    line = "jumpclass 00002 40000088 400000a4"
    yield from cases_of("Gate and Astray", given(Q, lines=("site h+0 g+0",)).built, (
        ("a target of jumps that is no gate", {}, {line: (line + " 400000a8",)}, "Gate 400000a8"),
        ("a target of jumps directly before an enter", {0xAC: 0x00002037}, {"callclass 00001 400000a4": ("callclass 00001",), line: (
            line + " 400000ac",)}, "Gate 400000ac"),
        ("a gate of jumps in place of that of calls", {0xAC: 0x00002037}, {}, "Gate 400000a4"),
        ("a target of jumps without its gate", {0x88: 0x13}, {}, "Gate 40000088"),
        ("a gate of jumps that is no target", {0xC4: 0x00002037}, {}, "Astray 400000c4")))


def lines_of_ranges():
    """Texts that are refused for a line of a leaf range, and why. The list of system calls is line 3, the leaf line 4."""
    built, line = given(H, calls=(64,)).built, "leaf 40000074 4000009c"
    leaf = lambda *texts: {line: tuple("leaf " + text for text in texts)}
    for name, lines, wanted in (
            ("an empty range", leaf("40000074 40000074"), "4 Order"), ("a range that ends before it begins", leaf("4000009c 40000074"), "4 Order"),
            ("one range twice", {line: (line, line)}, "5 Order"),
            ("ranges that overlap", leaf("40000074 40000088", "40000084 4000009c"), "5 Order"),
            ("it begins within a word", leaf("40000076 4000009c"), "4 Range"), ("it ends within a word", leaf("40000074 4000009e"), "4 Range"),
            ("it ends past the code", leaf("40000074 400000a4"), "4 Range"), ("it begins past the code", leaf("400000a0 400000a4"), "4 Range"),
            ("it begins before the code", leaf("3ffffffc 4000009c"), "4 Range"), ("one address", leaf("40000074"), "4 Form"),
            ("an upper-case digit", leaf("40000074 4000009C"), "4 Form"),
            ("behind a class", {line: ("callclass 00001", line)}, "5 Order"), ("behind a call", {line: (), OPENED: (OPENED, line)}, "5 Order"),
            ("before the list", {line: (), "calls 64": (line, "calls 64")}, "4 Form")):
        yield Verifies("the leaf line: " + name, edited(built, {}, lines), "refused 23 Graph " + wanted)
    text = built.graph.replace(b"rvcfi-graph 3", b"rvcfi-graph 2")
    yield Verifies("the leaf line: under version 2", built._replace(graph=text), "refused 23 Graph 4 Form")
    yield Verifies("the leaf line: up to the code's end", edited(built, {}, leaf("40000074 400000a0")), "accepted")


def lists():
    """Under a list of system calls."""
    name, of = "a listed call in a leaf", given(H, calls=(64,))
    yield Hardens(name, of, "rewritten code 160 data 3 classes 0 sites 0", {0x88: "04000F93 011F8463 F71FF06F 00000073 00008067"},
                  ["code 40000000 000000a0", "calls 64", "leaf 40000074 4000009c", OPENED, OVER, CALLED])
    yield Runs(name + ", run", of, ["stop exit 0", "steps 32", "walk 17"])
    yield alike(name, of, 2)
    name, of = "an unlisted call in a leaf", given(H, calls=(63,))
    yield Runs(name, of, ["stop handler __cfi_bad_target", "steps 23"])
    yield Compares(name + ", compared", of, "untame call 1 52")


WRAPPED = addi(5, 0, -8), sd(5, 5, 16), RETURN  # a base that an offset brings back below the window's end


def windows():
    """A store is masked by its base alone."""
    name, of = "a base that wraps round", object_of(*WRAPPED)
    yield Hardens(name, of, "rewritten code 64 data 0 classes 0 sites 0", {0x2C: "FF800293 0042FFB3 005FB823 00008067"})
    yield Runs(name + ", run", of, ["stop exit 0", "steps 12"])
    done = LeanRun(of.built, pair_of(1, of.built.words, of.built.graph), Script(), b"", LIMIT)
    yield Case(name + ": where it stores", [at for at in done.machine.bytes if at < CODE], list(range(0x10000008, 0x10000010)))


def tameness():
    """Which sources keep their meaning, by the base of a short mask."""
    wrapped, at_window = "untame window 1 4", lui(5, 0x10000)
    for form in LEAN:
        yield Compares("a base that wraps round in form " + form, object_of(*WRAPPED, form=form), wrapped)
    for form in FORMS:
        yield Compares("a base that wraps round in form " + form, object_of(*WRAPPED, form=form), "same 1")
    for name, words, wanted in (
            ("a long mask below the window's end", (at_window, sd(5, 5, -8)), "same 1"),
            ("a short mask below the window's end", (at_window, addi(5, 5, -8), sd(5, 5, 0)), "same 1"),
            ("a long mask at 0", (addi(5, 0, 8), sd(5, 5, -8)), "same 1"), ("two stores off x0", (sd(5, 0, 0), sd(5, 0, 2047)), "same 1"),
            ("a short mask at the window's end", (at_window, sd(5, 5, 0)), wrapped),
            ("a long mask below 0", (addi(5, 0, -8), sd(5, 5, -8)), wrapped)):
        yield Compares(name, object_of(*words, RETURN), wanted)


def placed(made, sizes):
    """The line of a map with these sizes that is that of no placement, or None."""
    maps = LeanMaps(made.source, made.flow, made.source.index[1, 0])
    gates = [made.layout.first]
    for size in sizes:
        gates.append(gates[-1] + size)
    return maps.wrong_line(gates[0], [(gate, *item.place) for gate, item in zip(gates, made.source.items)])


def placements():
    """Which maps are those of a program: of each the bytes from gate to gate."""
    stores = object_of(sd(1, 2, 8), sd(8, 2, 16), sd(9, 2, -8), sd(10, 2, 0), lui(0, 1), RETURN).made
    called, jumped = given(H).made, given(Q, lines=("site h+0 g+0",)).made
    name = "stores behind short and long masks: "
    for made, what, sizes, wanted in (
            (stores, name + "as hardened", (32, 4, 12, 4, 4, 20), None), (stores, name + "each alone", (32, 8, 12, 8, 4, 20), None),
            (stores, name + "the mask of older forms", (40, 4, 12, 4, 4, 20), 3),
            (stores, name + "a negative one joins a short mask", (32, 4, 4, 8, 4, 20), 5),
            (stores, name + "a short mask for a negative one", (32, 4, 8, 4, 4, 20), 5),
            (stores, name + "a long mask for another one", (32, 4, 12, 12, 4, 20), 6),
            (stores, name + "the first is none's", (28, 4, 12, 4, 4, 20), 3), (stores, name + "no lead", (8, 4, 12, 4, 4, 20), 3),
            (stores, name + "no return of a leaf", (32, 4, 12, 4, 4, 4), 8),
            (called, "a leaf that is called: as hardened", (28, 8, 4, 4, 4, 4, 20, 4, 4, 4, 4, 4, 4, 4), None),
            (called, "a leaf that is called: as if it saved", (28, 8, 4, 4, 4, 4, 20, 28, 4, 4, 4, 4, 4, 20), 10),
            (called, "a leaf that is called: the call of older forms", (28, 8, 32, 4, 4, 4, 20, 4, 4, 4, 4, 4, 4, 4), 5),
            (jumped, "a computed jump: as hardened", (28, 4, 60, 8, 20, 36, 20, 60, 20), None),
            (jumped, "a computed jump: two words lead a target", (28, 4, 60, 12, 20, 36, 20, 60, 20), 6),
            (jumped, "a computed jump: no jump label in a lead", (28, 4, 60, 8, 20, 32, 20, 60, 20), 8)):
        yield Case(what, placed(made, sizes), wanted)


def harts():
    """In the form for several harts."""
    shared = object_of(lui(5, 0x10), branch(1, 10, 0, 12), ld(10, 5, 0), RETURN, sd(10, 5, 0), RETURN, form="harts-lean")
    name = "two harts, each in a leaf"
    yield Hardens(name, shared, "rewritten code 92 data 0 classes 0 sites 0",
                  {0: HEAD_OF_HARTS + " 000102B7 00051663 0002B503 00008067 0042FFB3 00AFB023 00008067 FA9FF06F"},
                  ["code 40000000 0000005c", "leaf 4000003c 40000058", "call 4000000c 4000003c", "edge 40000040 4000004c"],
                  "3c 40 44 48 4c 54 58", map="rvcfi-map 2 harts-lean\n" + "".join(
                      "at 400000%s 0001 000000%02x\n" % each for each in zip("3c 40 44 48 4c 54 58".split(), range(0, 28, 4))) + "end\n")
    yield Runs(name + ", one first", shared, ["stop hart 0 exit 1", "steps 30", "walk 0 6", "walk 1 4",
               "trail 1 4000000c 4000003c 40000040 4000004c"], script("harts 2", "turn 1 14"))
    yield Runs(name + ", one too late", shared, ["stop hart 0 exit 0", "steps 29"], script("harts 2", "turn 1 13"))
    yield alike(name, shared)
    saving = object_of(*ENTERED, form="harts-lean")
    yield Hardens("two harts that save", saving, "rewritten code 164 data 0 classes 0 sites 0",
                  {0x3C: "0180006F 03019F13 000F1463 FC1FF06F 0011B023 00818193"})
    yield Runs("two harts that save, run", saving, ["stop hart 1 exit 5", "steps 58", "walk 0 6", "walk 1 15"],
               script("harts 2", "turn 0 20", "turn 1 100"))
    yield Runs("two harts of an image for one", object_of(*ENTERED), ["refused 26 Harts 2"], script("harts 2"))


RECURSIVE = [word for each in R.places for word in each[0]]


def calling_itself(count):
    """Calls itself 8,190 times, or once more."""
    return object_of(RECURSIVE[0], addi(10, 10, count - 8192), *RECURSIVE[2:])


def counting(k):
    """Calls itself so many times, and then a leaf."""
    return object_of(lui(10, 2), addi(10, 10, k - 8192), jump(0, 4), addi(2, 2, -16), sd(1, 2, 8), beq(10, 0, 16), addi(10, 10, -1), jump(1, -16),
                     jump(0, 8), jump(1, 16), ld(1, 2, 8), addi(2, 2, 16), RETURN, addi(10, 0, 5), RETURN)


def deepest():
    """Programs whose calls fill the shadow stack but for a slot, to the last one and past it, each with a name."""
    yield from (("%d calls" % count, calling_itself(count)) for count in (8190, 8191))
    yield from (("%d calls, and one of a leaf" % k, counting(k)) for k in (8189, 8190, 8191))


def depth():
    """As many calls as slots, and one more."""
    of, one_more = calling_itself(8190), calling_itself(8191)
    assert of == object_of(*RECURSIVE)
    yield Hardens("8,190 calls", of, "rewritten code 160 data 0 classes 0 sites 0")
    yield Runs("8,190 calls, run", of, ["stop exit 0", "steps 131061", "walk 73719"])
    yield alike("8,190 calls", of)
    yield Runs("8,191 calls, run", one_more, ["stop handler __cfi_deep", "steps 81924", "walk 49153"])
    yield Compares("8,191 calls, compared", one_more, "untame deep 1 28")
    for k, end, told in (8189, "exit 5", "same 1"), (8190, "exit 5", "untame deep 1 36"), (8191, "handler __cfi_deep", "untame deep 1 28"):
        name = "%d calls, and one of a leaf" % k
        yield Runs(name, counting(k), ["stop " + end])
        yield Compares(name + ", compared", counting(k), told)


def units_by_version():
    """Units at 40h: their words, and what is told under graphs of versions 1 and 2, and under one of version 3; None is not asked."""
    short, long, store, at = "00417FB3", "FF810F93 004FFFB3", "001FB023", CODE + 0x40
    no_unit = "rejected Unit 40000040"
    for name, words in (("a short mask", "%s %s" % (short, store)), ("a long mask", "%s %s" % (long, store)),
                        ("a base that is x3", "0041FFB3 " + store), ("a base that is x4", "00427FB3 " + store),
                        ("sixteen stores", " ".join([short] + [store] * 16))):
        yield name, words, no_unit, "accepted"
    yield "seventeen stores", " ".join([short] + [store] * 17), no_unit, "rejected Unit 40000084"
    yield "the mask of older versions", "FF810F93 024F9F93 024FDF93 " + store, "accepted", no_unit
    yield "the call of older versions", spelled(push(at) + [jump(1, -28)]), None, no_unit
    for past in 0, 4, 8:
        old = check(at, 5, -4, 1, past)
        yield "an older jump that reads %d behind its target" % past, spelled(old + [i_form(0x67, 0, 0, 31, 0)]), None, no_unit
        yield "an older call that reads %d behind its target" % past, spelled(old + push(at + 48) + [i_form(0x67, 0, 1, 31, 0)]), None, no_unit
    for kind in "jump", "call":
        yield "a computed " + kind, spelled(computed(at, 5, -4, 1, kind)), no_unit, None
    yield "a call of one word", "000000EF", no_unit, None
    yield "an enter", entered(0x40), no_unit, "rejected Leaf 4000002c"
    for name, words in (("a return by x1", "00008067"), ("a mask of x31", "01F27FB3 " + store), ("a long mask of x3", "FF810F93 0041FFB3 " + store),
                        ("a mask without a store", short), ("a store below the masked address", "004FFFB3 801FB023")):
        yield name, words, no_unit, no_unit


def by_version():
    """One unit and a stop, under graphs of versions 1, 2 and 3."""
    older = spelled(program(1, None).words[:16])
    for name, words, under_older, under_3 in units_by_version():
        for graph, wanted in (1, under_older), (2, under_older), (3, under_3):
            head = older if graph < 3 else "%s %s" % (HEAD, entered(0x2C))
            entry = "call 4000000c 400000%s" % ("40" if graph < 3 else "2c")
            if wanted:
                yield Verifies("%s under a graph of version %d" % (name, graph), raw(stopped(head + " " + words), entry, graph=graph), wanted)


def links():
    """Objects that are joined, and a slot of the table of addresses."""
    of = Given((MAIN.file(), F.file()), is_linked=True)
    yield Hardens("two objects", of, "rewritten code 128 data 0 classes 0 sites 0", has=("leaf 40000074 4000007c", CALLED))
    yield Runs("two objects, run", of, ["stop exit 3", "steps 24", "walk 11"])
    yield alike("two objects", of)
    of = Given((T.file(),), is_linked=True)
    yield Hardens("a slot of the table", of, "rewritten code 168 data 8 classes 1 sites 1", {0x44: "C0010297 FBC2B283"}, data="8800004000000000")
    yield Runs("a slot of the table, run", of, ["stop exit 4", "steps 33", "walk 9"])


def kept():
    """Branches over a word."""
    words = beq(10, 0, 8), jump(0, 4), RETURN, jump(1, -8), RETURN
    yield Hardens("a branch over a jump with a lead", object_of(*words), "rewritten code 148 data 0 classes 0 sites 0", {0x44: "02050063 0180006F"})
    yield Hardens("the same in form split", object_of(*words, form="split"), "rewritten code 152 data 0 classes 0 sites 0")
    yield Hardens("a branch over a jump without a lead", object_of(beq(10, 0, 8), jump(0, 4), RETURN),
                  "rewritten code 64 data 0 classes 0 sites 0", {0x2C: "00051463 0080006F 0040006F 00008067 FC5FF06F"})


def bounds():
    """An object of two steps is compared with an image of many more: up to 21 for each, and 13 or 17 in all."""
    for form, first, stop in ("lean", 9, "stop exit 0"), ("harts-lean", 13, "stop hart 0 exit 0"):
        returning = object_of(RETURN, form=form)
        for count in 0, 46, 47:
            other = object_of(*[NOP] * count, RETURN, form=form)
            yield Runs("%d words and a return in form %s" % (count, form), other, [stop, "steps %d" % (first + count)])
            told = "same 1" if count < 47 else "differs 0\nimage running"
            yield Compares("a return beside %d words and one in form %s" % (count, form), returning, told, image=other.built.image)


def limits():
    """As much code as there may be, and one instruction more."""
    short, long = sd(5, 2, 8), sd(5, 2, -8)
    for name, words, wanted in (
            ("short masks in a leaf", [short] * 131065 + [RETURN], "rewritten code 557080 data 0 classes 0 sites 0"),
            ("one more short mask in a leaf", [short] * 131066 + [RETURN], "refused 19 CodeTooLarge 1048580"),
            ("long masks in a leaf", [long] * 87377 + [RETURN], "rewritten code 393256 data 0 classes 0 sites 0"),
            ("one more long mask in a leaf", [long] * 87378 + [RETURN], "refused 19 CodeTooLarge 1048588"),
            ("short masks outside of leaves", [short] * 131060 + [lui(0, 1), RETURN], "rewritten code 557104 data 0 classes 0 sites 0"),
            ("one more short mask outside of leaves", [short] * 131061 + [lui(0, 1), RETURN], "refused 19 CodeTooLarge 1048584")):
        yield Hardens("as much code as there may be: " + name, object_of(*words), wanted)


ALL = (units, leaves, targets, gates, lines_of_ranges, lists, windows, harts, depth, tameness, placements, by_version, links, kept, bounds, limits)
