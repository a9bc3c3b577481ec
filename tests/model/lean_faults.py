"""Pairs with graphs of version 3 and one fault each: the rule that rejects each, and of a run under changed data where it leaves its
graph, and by which clauses (lean_walk.py has their names), as they were read from the rules. What does no harm comes last.
"""


from tests.model.faults import CLASS, NOP, OTHER, POINTERS, Fault, going, label, line, patched, plain, reclassed, relined, small
from tests.model.lean_program import LEAF_RETURN, LeanProgram
from tests.model.worked import pointers
from tests.shared.instructions import BEQ, BNE, EBREAK, ECALL, LD, SD, addi, branch, i_form, jal, ld, r_form, s_form, u_form
from tests.shared.units import UNITS_OF_3, push
from tools.simulator.machine import CODE, START

JUMPED = 2  # the label of the class of jumps
FIRST = UNITS_OF_3[1]
CLOSING = FIRST - 8
LIMIT = 12 * 8193
UPPER = lambda rd, imm: u_form(0x37, rd, imm)
LOADED = plain(UPPER(5, 0x10), ld(5, 5, 0))  # the pointer to f


def base(version=1, calls=None):
    """Goes along each kind of line once, calls a leaf, and ends by its entry's return."""
    p = LeanProgram(version, calls)

    def more():
        p.label("below")
        p.store(SD, 0, -8, 2)
        p.label("call of a leaf")
        p.call("leaf")

    going(p, p.function, JUMPED, more)
    p.leaf("leaf")
    p.plain(addi(10, 0, 3))
    p.label("leaf returns")
    p.leaf_returns()
    p.end_leaf()
    p.label("stop")
    p.stop()
    return p.built("main", pointers("f", "g", "h"))


def lean(*units, version=1, calls=None, data=b""):
    """A program whose entry saves, and whose units are put by functions of it, and a stop."""
    return small(function("main"), *units, program=LeanProgram(version, calls), data=data)


def function(name, call=None, jump=None):
    return lambda p: p.function(name, call, jump)


def leaf(name, *words):
    """A leaf of these words."""
    def put(p):
        p.leaf(name)
        p.plain(*words)
        p.end_leaf()
    return put


def call(target):
    return lambda p: p.call(target)


def jump(target):
    return lambda p: p.jump(target)


def gate(label):
    return lambda p: p.gate_word(label)


def enters(p):
    p.enter()


def a_return(p):
    p.returns()


def a_leaf_return(p):
    p.leaf_returns()


def units(*puts):
    """Several units as one."""
    def put(p):
        for each in puts:
            each(p)
    return put


SAVED = units(plain(addi(2, 2, -16)), lambda p: p.store(SD, 1, 8, 2))
RESTORED = units(plain(ld(1, 2, 8), addi(2, 2, 16)), a_return)
MAIN = units(SAVED, call("f"), RESTORED)  # calls f and returns


def prologues(built, at):
    two = base(2)
    yield Fault("no mask is made", patched(built, {START + 4: NOP}), "Prologue", at["main enter"], ("x4",))
    yield Fault("half a mask is made", patched(built, {START + 8: NOP}), "Prologue", at["main enter"], ("x4",))
    yield Fault("the opening begins in the second slot", patched(built, {START + 16: addi(3, 3, 16)}), "Prologue", at["main enter"], ("x3",))
    yield Fault("the opening begins in another hart's part", patched(two, {START + 28: i_form(0x13, 1, 31, 10, 17)}), "Prologue",
                two.labels["main enter"], ("x3",), 8, 1)
    yield Fault("the opening saves before its call", patched(built, {START + 16: s_form(SD, 3, 4, 8)}), "Prologue", START + 16, ("Writes",))
    yield Fault("the opening links to x5", patched(built, {FIRST - 12: jal(5, FIRST - 12, at["main enter"])}), "Prologue", FIRST - 12,
                ("Moves Jal x5",))
    yield Fault("a handler that runs on", patched(built, {CODE: NOP, at["main body"]: jal(0, at["main body"], CODE)}), "Prologue", CODE,
                ("MayStop Ran",))
    yield Fault("a closing that does not exit", patched(built, {CLOSING: addi(17, 0, 64)}), "Prologue", CLOSING + 4, ("MayEcall",))
    yield Fault("a system call in the opening", patched(built, {START: ECALL}), "Prologue", START, ("MayEcall",))
    yield Fault("a break in the closing", patched(built, {CLOSING: EBREAK}), "Prologue", CLOSING, ("MayStop Break", "End Break"))


def kept_sites(built, at):
    """What a leaf may not do, and returns by x1 elsewhere."""
    def of(name, *puts, rule="Unit", at_label="last", clauses=("Moves Jalr x0",), **more):
        p = lean(*puts, **more)
        return Fault(name, p, rule, p.labels[at_label], clauses)

    taken = plain(UPPER(6, 0x10), ld(1, 6, 0))
    yield of("a leaf that keeps x1 in data and loads it again", MAIN, lambda p: p.leaf("f"), plain(addi(2, 2, -16)),
             lambda p: p.store(SD, 1, 8, 2), plain(UPPER(6, 0x10), ld(1, 6, 0), addi(2, 2, 16)), label("last"), a_leaf_return,
             lambda p: p.end_leaf(), data=pointers("main body"))
    yield of("a return by x1 outside of leaves", taken, label("last"), a_leaf_return, label("f"), data=pointers("main body"))
    yield of("a return by x1 behind an enter", MAIN, function("f"), taken, label("last"), a_leaf_return, data=pointers("main body"))
    yield of("a leaf that returns by another register", MAIN, lambda p: p.leaf("f"), LOADED, label("last"), plain(i_form(0x67, 0, 0, 5, 0)),
             lambda p: p.end_leaf(), data=pointers("main body"))
    yield of("a leaf that returns past its site", MAIN, lambda p: p.leaf("f"), label("last"), plain(i_form(0x67, 0, 0, 1, 4)),
             lambda p: p.end_leaf())
    inner = lean(MAIN, lambda p: p.leaf("f"), call("g"), a_leaf_return, lambda p: p.end_leaf(), function("g"), a_return)
    yield Fault("a leaf that calls", inner, "Unit", inner.labels["g enter"] + 12, ("Writes",))
    twice = lean(MAIN, lambda p: p.leaf("f"), call("g"), label("last"), a_leaf_return, lambda p: p.end_leaf(), leaf("g", LEAF_RETURN))
    yield Fault("a leaf that calls a leaf", twice, "Unit", twice.labels["last"], ("Moves Jalr x0",))
    pointed = lean(MAIN, lambda p: p.leaf("f"), LOADED, lambda p: p.icall(5, 0, CLASS), a_leaf_return, lambda p: p.end_leaf(),
                   function("g", CLASS), a_return, data=pointers("g"))
    yield Fault("a leaf that calls through a pointer", pointed, "Unit", pointed.labels["g enter"] + 12, ("Writes",))


def masks(built, at):
    """Stores whose addresses are not masked. x6 is an address of the shadow stack behind the slots that are in use."""
    behind = plain(UPPER(6, 0x60000), addi(6, 6, 64))
    def of(name, *words, before=plain(), clauses=("Writes",)):
        p = lean(behind, before, label("mask"), plain(*words), a_return)
        return Fault(name, p, "Unit", p.labels["mask"] + 4 * (len(words) - 1), clauses)

    store = s_form(SD, 31, 6, 0)
    masked = lambda rd, rs1, rs2: r_form(0x33, 7, 0, rd, rs1, rs2)
    yield of("a store without a mask", s_form(SD, 6, 6, 0))
    yield of("a mask by x3", masked(31, 6, 3), s_form(SD, 31, 6, 1024), before=plain(UPPER(6, 0x60000), addi(6, 6, 15)))
    yield of("a mask by a register of the program", masked(31, 6, 6), store)
    yield of("a mask into another register", masked(5, 6, 4), s_form(SD, 6, 6, 0))
    yield of("a long mask that masks nothing", addi(31, 6, 0), store)
    yield of("a long mask by x6", addi(31, 6, 0), masked(31, 31, 6), store)
    yield of("a store below the masked address", masked(31, 0, 4), s_form(SD, 31, 6, -8), clauses=("MayStop StoreFault",))
    yield of("a store off another register than x31", masked(31, 6, 4), s_form(SD, 6, 6, 0))
    lost = lean(behind, plain(addi(4, 0, -1)), label("mask"), lambda p: p.store(SD, 6, 0, 6), a_return)
    yield Fault("the mask is lost", lost, "Unit", lost.labels["mask"] + 4, ("Writes",))
    kept = lean(SAVED, LOADED, label("icall"), lambda p: p.icall(5, 0, 0x60000), behind, label("mask"), lambda p: p.store(SD, 6, 0, 6), RESTORED,
                function("f", 0x60000), a_return, data=pointers("f"))
    for name, k in ("a check that does not make the mask anew", 12), ("a check that makes half a mask", 13):
        words = {kept.labels["icall"] + 48: NOP, kept.labels["icall"] + 52: NOP} if k == 12 else {kept.labels["icall"] + 48: UPPER(4, 0x70000)}
        yield Fault(name, patched(kept, words), "Unit", kept.labels["mask"] + 4, ("Writes",))
    seventeen = lean(behind, label("mask"), lambda p: p.stores(6, None, [(SD, 6, 0)] * 16), label("last"), plain(s_form(SD, 6, 6, 0)), a_return)
    yield Fault("a store behind sixteen, off the program's register", seventeen, "Unit", seventeen.labels["last"], ("Writes",))


def enters_changed(built, at):
    """Enters that are none, and x3 moved."""
    begun = at["f enter"]
    other = lean(SAVED, LOADED, call("f"), RESTORED, function("f"), plain(addi(1, 5, 0)), a_return, data=pointers("main body"))
    saves = other.labels["f enter"] + 12
    yield Fault("an enter that saves another register", patched(other, {saves: s_form(SD, 3, 5, 0)}), "Unit", saves, ("Writes",))
    yield Fault("an enter that saves behind its slot", patched(built, {begun + 12: s_form(SD, 3, 1, 8)}), "Unit", begun + 12, ("Writes",))
    far = lean(MAIN, function("f"), SAVED, call("g"), RESTORED, function("g"), a_return)
    yield Fault("an enter that takes two slots", patched(far, {far.labels["f enter"] + 16: addi(3, 3, 16)}), "Unit",
                far.labels["g enter"] + 12, ("Writes",))
    yield Fault("an enter that takes no slot", patched(far, {far.labels["f enter"] + 16: NOP}), "Unit", far.labels["g enter"] + 12,
                ("Writes",))
    for version, clause in (1, "MayStop StoreFault"), (2, "Writes"):
        deep = lean(call("main"), version=version)
        deep = patched(deep, {deep.labels["main enter"] + 4: branch(BEQ, 0, 0, 8)})
        yield Fault("an enter without a test of depth, version %d" % version, deep, "Unit", deep.labels["main enter"] + 12,
                    (clause,), 1, 0, LIMIT)
    moved = lean(plain(addi(3, 3, 8)), call("f"), a_return, function("f"), a_return)
    yield Fault("x3 is moved", moved, "Unit", moved.labels["f enter"] + 12, ("Writes",))
    older = lean(lambda p: p.put(8, lambda at: push(at) + [jal(1, at + 28, p.called("f"))]), a_return, function("f"), a_return)
    yield Fault("a call that saves its site too", older, "Unit", FIRST + 24 + 20, ("Writes",))
    linking = lean(label("call"), lambda p: p.put(1, lambda at: [jal(5, at, p.called("f"))]), a_return, function("f"), a_return)
    yield Fault("a call that links to x5", linking, "Unit", linking.labels["call"], ("Moves Jal x5",))


def computed(built, at):
    """Checks that let pass what they should not."""
    icall, ijump = at["icall"], at["ijump"]
    of_call, of_jump = (icall + 56, ("Moves Jalr x1",)), (ijump + 56, ("Moves Jalr x0",))
    turned = lambda to, k=0: {"changes": {POINTERS + 8 * k: at[to] if isinstance(to, str) else to}}
    nothing = branch(BEQ, 0, 0, 8)
    yield Fault("a call's check that compares nothing", patched(built, {icall + 40: nothing}), "Unit", *of_call, **turned("save"))
    yield Fault("a jump's check that compares nothing", patched(built, {ijump + 40: nothing}), "Unit", *of_jump, **turned("stop", 1))
    yield Fault("a call to the target itself", patched(built, {icall + 56: i_form(0x67, 0, 1, 31, 0)}), "Unit", *of_call)
    yield Fault("a call's check that reads the first word", patched(built, {icall + 28: i_form(0x03, 2, 30, 31, 0)}), "Unit", *of_call,
                **turned(at["f"] + 8))
    yield Fault("a jump's check that reads the second word", patched(built, {ijump + 28: i_form(0x03, 2, 30, 31, 4)}), "Unit", *of_jump,
                **turned(at["g"] - 4, 1))
    yield Fault("a jump behind what was checked", patched(built, {ijump + 56: i_form(0x67, 0, 0, 31, 8)}), "Unit", *of_jump)
    yield Fault("a jump by another register", patched(built, {ijump + 56: i_form(0x67, 0, 0, 5, 0)}), "Unit", *of_jump, **turned(at["g"] + 2, 1))
    yield Fault("a call that links to x5", patched(built, {icall + 56: i_form(0x67, 0, 5, 31, 8)}), "Unit", icall + 56, ("Moves Jalr x5",))
    bare = lean(LOADED, label("bare"), plain(i_form(0x67, 0, 1, 5, 0)), a_return, data=pointers("main body"))
    yield Fault("a bare computed call", bare, "Unit", bare.labels["bare"], ("Moves Jalr x1",))


def returns(built, at):
    """Returns to another address than that of the newest call."""
    taken = plain(UPPER(5, 0x10), ld(1, 5, 0))
    own = lean(MAIN, function("f"), taken, label("return"), a_return, data=pointers("main body"))
    begun = own.labels["return"]
    yield Fault("a return without its test", patched(own, {begun + 8: branch(BEQ, 0, 0, 8), begun + 16: i_form(0x67, 0, 0, 1, 0)}), "Unit",
                begun + 16, ("Moves Jalr x0",))
    yield Fault("a return to the call before the newest", patched(own, {begun: i_form(0x03, LD, 31, 3, -16)}), "Unit", begun + 16,
                ("Moves Jalr x0",), changes={POINTERS: CLOSING})
    kept = lean(MAIN, function("f"), a_return)
    yield Fault("a return that leaves its slot", patched(kept, {kept.labels["f body"] + 4: NOP}), "Unit", None)


def system_calls(built, at):
    listed = base(1, (63, 64))
    bare = lean(plain(addi(17, 0, 65)), label("ecall"), plain(ECALL), a_return, calls=(63, 64))
    yield Fault("a number that is not in the list", bare, "Unit", bare.labels["ecall"], ("MayEcall",))
    yield Fault("another list", reclassed(listed, "calls 63 64", "calls 64 65"), "Unit", listed.labels["ecall"] + 20, ("MayEcall",))
    yield Fault("a word that is no instruction", lean(label("last"), plain(0xFFFFFFFF), a_return), "Unit", FIRST + 24, ("MayStop Illegal",))


def falling(built, at):
    """Units that go on into what is fresh, or out of a leaf."""
    sliding = lean(plain(NOP), jump("f"), function("f"), a_return)
    jumped = sliding.labels["f jump"]
    yield Fault("a saved start falls into an enter", patched(relined(sliding, line(sliding, "f jump", "edge")), {jumped: NOP}), "Leaf",
                sliding.labels["f enter"], ("x3",))
    hostile = lean(SAVED, call("g"), LOADED, plain(addi(1, 5, 0)), enters, a_return, function("g"), a_return, data=pointers("main body"))
    yield Fault("x1 is taken from data, and an enter is fallen into", hostile, "Leaf", hostile.labels["g"] - 40, ("x3", "x1"))
    double = lean(enters, a_return)
    yield Fault("an enter behind an enter", double, "Leaf", FIRST + 24, ("x3",))
    for name, put in ("an enter", units(enters, a_return)), ("a leaf", leaf("f", LEAF_RETURN)):
        bare = small(enters, put, program=LeanProgram())
        yield Fault("an entry's enter before " + name, bare, "Leaf", FIRST + 20, ("x3",))
    into = lean(call("f"), a_return, lambda p: p.function("f"), leaf("inner", LEAF_RETURN))
    yield Fault("an enter before a leaf", into, "Leaf", into.labels["inner"], ("x3",))
    out = lean(MAIN, leaf("f", NOP), label("out"), a_return)
    yield Fault("a leaf goes on", out, "Leaf", out.labels["out"], ("x3", "slots"))
    asked = lean(MAIN, leaf("f", addi(17, 0, 5), ECALL), label("out"), a_return)
    yield Fault("a leaf goes on behind a system call", asked, "Leaf", asked.labels["out"], ("x3", "slots"))
    back = lean(call("f"), enters, a_return, leaf("f", LEAF_RETURN))
    yield Fault("a call before an enter", back, "Leaf", FIRST + 28, ("x3", "x1"))
    gated = lean(call("f"), gate(7), enters, a_return, leaf("f", LEAF_RETURN))
    yield Fault("a call before a gate of an enter", gated, "Leaf", FIRST + 28, ("x3", "x1"))
    gates = lean(plain(NOP), gate(6), gate(7), enters, a_return)
    yield Fault("two gates before an enter", gates, "Leaf", FIRST + 32, ("x3",))
    over = lean(plain(addi(1, 0, 0)), lambda p: p.near(BEQ, 1, 0, "on"), enters, label("on"), a_return)
    yield Fault("a branch before an enter, which it goes over", over, "Leaf", None)
    under = lean(plain(addi(1, 0, 0)), lambda p: p.near(BNE, 1, 0, "on"), label("enter"), enters, label("on"), a_return)
    yield Fault("a branch before an enter, which it does not go over", under, "Leaf", under.labels["enter"], ("x3", "x1"))
    late = reclassed(built, "leaf %08x %08x" % (at["leaf"], at["stop"]), "leaf %08x %08x" % (at["leaf"] + 4, at["stop"]))
    yield Fault("a range that begins behind the first unit of its leaf", late, "Leaf", at["leaf"], ("x3", "slots"))
    stored = lean(lambda p: p.store(SD, 5, 0, 2), enters, a_return)
    yield Fault("a store before an enter", stored, "Leaf", FIRST + 32, ("x3",))


def jumping(built, at):
    """Direct transfers between fresh and saved starts, and into units."""
    def of(name, puts, pc, clauses, **more):
        p = lean(*puts, **more)
        return Fault(name, p, "Target", p.labels[pc] if isinstance(pc, str) else pc, clauses)

    goes = lambda name: lambda p: p.put(1, lambda at: [jal(1, at, p.address(name))], lambda at: "call %08x %08x" % (at, p.address(name)))
    last = units(function("f"), a_return)
    yield of("a call past an enter", (goes("f body"), a_return, last), "f body", ("x3", "slots"))
    yield of("a call of a lead", (goes("f"), a_return, last), "f", ("x3", "slots"))
    yield of("a jump to an enter", (jump("f enter"), last), "f enter", ("x3",))
    yield of("x1 is taken from data, and an enter is jumped to", (LOADED, plain(addi(1, 5, 0)), jump("f enter"), last), "f enter",
             ("x3", "x1"), data=pointers("main body"))
    yield of("a branch to an enter", (lambda p: p.near(BEQ, 0, 0, "f enter"), plain(NOP), last), "f enter", ("x3",))
    yield of("a long branch to an enter", (lambda p: p.branch(BNE, 0, 0, "f enter"), last), "f enter", ("x3",))
    yield of("a jump to the gate of an enter", (jump("gate"), a_return, label("gate"), gate(7), enters, a_return), "gate", ("x3",))
    yield of("a jump into a leaf", (jump("f"), leaf("f", LEAF_RETURN)), "f", ("x3",))
    yield of("x1 is taken from data, and a leaf is jumped to", (LOADED, plain(addi(1, 5, 0)), jump("f"), leaf("f", LEAF_RETURN)), "f",
             ("x3", "x1", "Moves Jalr x0"), data=pointers("main body"))
    out = units(lambda p: p.leaf("f"), jump("out"), lambda p: p.end_leaf())
    yield of("a jump out of a leaf", (MAIN, out, label("out"), a_return), "out", ("x3", "slots"))
    branching = units(lambda p: p.leaf("f"), lambda p: p.near(BEQ, 0, 0, "out"), a_leaf_return, lambda p: p.end_leaf())
    yield of("a branch out of a leaf", (MAIN, branching, label("out"), a_return), "out", ("x3", "slots"))
    called = lean(a_return)
    for name, to, clauses in (("what saves nothing", called.labels["main body"], ("x3", "slots")),
                              ("the closing", CLOSING, ("pending", "x3", "slots"))):
        own = relined(called, line(called, START, "call"), "call %08x %08x" % (START, to))
        yield Fault("the opening calls " + name, patched(own, {FIRST - 12: jal(1, FIRST - 12, to)}), "Target", to, clauses)
    yield of("a jump past an enter's test", (jump(FIRST + 24 + 4 + 4 + 12), last), FIRST + 24 + 4 + 4 + 12, ("Within edge", "Writes"))
    yield of("a jump past a return's test", (LOADED, lambda p: p.store(SD, 5, 0, 5), jump(FIRST + 24 + 8 + 8 + 4 + 16), a_return),
             FIRST + 24 + 8 + 8 + 4 + 16, ("Within edge", "Moves Jalr x0"))
    yield of("a jump past a mask, where x31 is an address of code",
             (call("f"), label("to"), jump(FIRST + 24 + 4 + 4 + 4), lambda p: p.store(SD, 5, 0, 2), last), FIRST + 24 + 12,
             ("Within edge", "MayStop StoreFault", "End StoreFault"))
    yield of("a jump past a check", (lambda p: p.store(SD, 5, 0, 2), jump(FIRST + 24 + 8 + 4 + 56), lambda p: p.icall(5, 0, CLASS),
             function("f", CLASS), a_return), FIRST + 24 + 8 + 4 + 56, ("Within edge", "Moves Jalr x1"))
    yield of("a jump to the opening", (jump(START),), "main enter", ("x3",))


def listed(built, at):
    """Lines of edges, calls and sites."""
    edge = lambda start, to: "edge %08x %08x" % (start, to)
    jumped, save, near = at["jump"], at["save"], at["near"]
    yield Fault("a jump without its line", relined(built, edge(jumped, save)), "Unlisted", jumped, ("Moves Jal x0",))
    yield Fault("a jump whose line has another target", relined(built, edge(jumped, save), edge(jumped, at["further"])), "Unlisted", jumped,
                ("Moves Jal x0",))
    yield Fault("a branch without its line", relined(built, edge(near, at["on"])), "Unlisted", near, ("Moves Branch",))
    yield Fault("a long branch without its line", relined(built, line(built, "long", "edge")), "Unlisted", at["long"] + 4, ("Moves Jal x0",))
    yield Fault("a lead's jump without its line", relined(built, line(built, "g jump", "edge")), "Unlisted", at["g jump"], ("Moves Jal x0",))
    for name, label, where in ("a call", "call", at["call"]), ("a call of a leaf", "call of a leaf", at["call of a leaf"]):
        yield Fault(name + " without its line", relined(built, line(built, label, "call")), "Unlisted", where, ("Moves Jal x1",))
        yield Fault(name + " whose line has another target", relined(built, line(built, label, "call"), "call %08x %08x" % (where, at["h enter"])),
                    "Unlisted", where, ("Moves Jal x1",))
    yield Fault("an opening without its line", relined(built, line(built, START, "call")), "Unlisted", FIRST - 12, ("Moves Jal x1",))
    yield Fault("the opening's line at its `jal`", relined(built, line(built, START, "call"), "call %08x %08x" % (FIRST - 12, at["main enter"])),
                "Unlisted", FIRST - 12, ("Moves Jal x1",))
    for sort, label in ("call", CLASS), ("jump", JUMPED):
        site, row = at["i" + sort], ("Moves Jalr x%d" % (sort == "call"),)
        own = line(built, "i" + sort, "site")
        others = {"without its line": (), "whose line has another label": ("site %08x %s %05x" % (site, sort, OTHER),),
                  "whose line is of the other kind": ("site %08x %s %05x" % (site, "jump" if sort == "call" else "call", label),)}
        for name, lines in others.items():
            yield Fault("a computed %s %s" % (sort, name), relined(built, own, *lines), "Site", site + 56, row)
    returns = at["f returns"] + 16
    yield Fault("a site line before a return", relined(built, None, "site %08x jump %05x" % (returns - 56, JUMPED)), "Site", returns,
                ("Moves Jalr x0",))
    long = lean(MAIN, leaf("f", *[NOP] * 14, LEAF_RETURN))
    start = long.labels["f"]
    yield Fault("a site line before a leaf return", relined(long, None, "site %08x jump %05x" % (start, JUMPED)), "Site", start + 56,
                ("Moves Jalr x0",))


def classes(built, at):
    """Targets and gates."""
    f, g, h = at["f"], at["g"], at["h"]
    both = "callclass %05x %08x %08x" % (CLASS, f, g)
    jumps = "jumpclass %05x %08x" % (JUMPED, g)
    yield Fault("a gate of calls that is no target's", reclassed(built, both, "callclass %05x %08x" % (CLASS, g)), "Astray", at["icall"] + 56,
                ("Moves Jalr x1",))
    yield Fault("a gate of jumps that is no target", reclassed(built, jumps, "jumpclass %05x" % JUMPED), "Astray", at["ijump"] + 56,
                ("Moves Jalr x0",))
    open_gate = lean(SAVED, LOADED, lambda p: p.icall(5, 0, CLASS), RESTORED, label("f"), plain(NOP, NOP), label("gate"), gate(CLASS), a_return,
                     function("g", CLASS), a_return, data=pointers("f"))
    f, g = open_gate.labels["f"], open_gate.labels["g"]
    line_of = lambda *targets: "callclass %05x%s" % (CLASS, "".join(" %08x" % to for to in targets))
    yield Fault("a gate of calls behind which no enter stands", reclassed(open_gate, line_of(g), line_of(f, g)), "Gate", f + 8, ("x3", "slots"))
    fresh = lean(LOADED, lambda p: p.ijump(5, 0, JUMPED), lambda p: p.landing("f", JUMPED), enters, a_return, data=pointers("f"))
    yield Fault("a target of jumps before an enter", fresh, "Gate", fresh.labels["f"], ("x3",))
    early = reclassed(built, both, "callclass %05x %08x %08x" % (CLASS, at["f"], at["g"] + 8))
    yield Fault("a target of calls at its gate", early, "Gate", at["icall"] + 56, ("Moves Jalr x1",), changes={POINTERS: at["g"]})
    yield Fault("a class of jumps for a computed call", reclassed(built, both, "jump" + both[4:]), "Site", at["icall"] + 56, ("Moves Jalr x1",))
    yield Fault("a class of calls for a computed jump", reclassed(built, jumps, "call" + jumps[4:]), "Site", at["ijump"] + 56,
                ("Moves Jalr x0",))


def ends(built, at):
    endless = LeanProgram()
    endless.function("main")
    endless.plain(NOP)
    yield Fault("code without a stop", endless.built("main"), "End", endless.at, ("Within plain", "MayStop Illegal", "End Illegal"))


def harmless(built, at):
    """Faults whose runs stay in their graph: of a line that no step needs, or of words that do what they may."""
    yield Fault("a length of other code", reclassed(built, "code %08x %08x" % (CODE, len(built.code)), "code %08x %08x" % (
        CODE, len(built.code) + 4)), "Length", None)
    yield Fault("an edge line at a plain word", relined(built, None, "edge %08x %08x" % (at["save"], at["g"])), "Unused", None)
    yield Fault("a call line at a plain word", relined(built, None, "call %08x %08x" % (at["save"], at["f enter"])), "Unused", None)
    yield Fault("a class of a target without a gate", reclassed(built, "callclass %05x %08x" % (OTHER, at["h"]), "callclass %05x %08x" % (
        OTHER, at["stop"])), "Gate", None)
    inner = lean(MAIN, lambda p: p.leaf("g"), plain(NOP), label("f"), a_leaf_return, lambda p: p.end_leaf())
    yield Fault("a call into a leaf behind its first unit", inner, "Target", None)
    two = lean(MAIN, leaf("f", NOP), leaf("g", LEAF_RETURN))
    yield Fault("a leaf that goes on into a leaf", two, "Leaf", None)
    across = lean(MAIN, units(lambda p: p.leaf("f"), jump("g"), lambda p: p.end_leaf()), leaf("g", LEAF_RETURN))
    yield Fault("a jump from a leaf to a leaf", across, "Target", None)
    yield Fault("a leaf with a gate", lean(MAIN, leaf("f", u_form(0x37, 0, 7), LEAF_RETURN)), "Unit", None)
    older = lean(plain(addi(31, 2, -8), i_form(0x13, 1, 31, 31, 36), i_form(0x13, 5, 31, 31, 36), s_form(SD, 31, 1, 0)), a_return)
    yield Fault("the mask of older versions", older, "Unit", None)
    within = "leaf %08x %08x" % (at["f returns"] + 4, at["f returns"] + 8)
    own = "leaf %08x %08x" % (at["leaf"], at["stop"])
    yield Fault("a range within a unit", reclassed(built, own, within + "\n" + own), "Leaf", None)
    entering = units(lambda p: p.leaf("f"), jump("g enter"), lambda p: p.end_leaf())
    yield Fault("a jump from a leaf to an enter", lean(MAIN, entering, function("g"), a_return), "Target", None)


GROUPS = (prologues, kept_sites, masks, enters_changed, computed, returns, system_calls, falling, jumping, listed, classes, ends, harmless)


def faults():
    """All faults."""
    built = base()
    for rows in GROUPS:
        yield from rows(built, built.labels)
