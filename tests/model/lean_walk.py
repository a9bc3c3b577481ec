"""Runs of pairs with graphs of version 3, and whether they stay in their graph.

Two statements are asked of each step. That of confined.py speaks of instructions and the graph's lines alone. The other goes by units:
which unit follows which, what is chosen, and what registers and the shadow stack hold where a unit starts, fresh or saved. A clause that
fails is told by its name: those of confined.py, and

    Walk KIND      no unit that may follow one of this kind with these pending sites; Begin: the first is not the opening
    Choice KIND    it may follow, but the registers at the unit's start choose another one
    Within KIND    the word is none of the unit that was begun last
    End TURN       a unit ends so that may not
    x4, pending, x3, slots, x1       at a unit's start, the mask; how many sites pend; the registers and the slots that hold them
"""


from tests.model.confined import PART_SIZE, Failure, Statement, Watched, part_of, slot
from tests.model.lean_program import PAST
from tests.model.rules import GUARDED, STOP
from tests.shared.units import HANDLERS
from tools.simulator.machine import ALL, CODE, DATA_END, SHADOW, START
from tools.simulator.runs import Run

MASK, MOST_CALLS = 2**28 - 1, 8192
BAD_TARGET, BAD_RETURN, DEEP = sorted(HANDLERS)


class UnitStatement:
    """What is asked of a run by the units of a pair that splits as a whole. A state is a unit's start and the pending sites, the newest
    first."""

    def __init__(self, pair):
        self.pair, self.starts = pair, pair.starts()
        self.closing, self.opening_call = pair.first - 8, pair.first - 12
        self.at, self.known = {}, {}

    def kind(self, at):
        """The kind of the unit at a start; a branch and a jump are one."""
        if at in self.pair.units:
            return self.pair.kind(at)
        return {START: "opening", self.closing: "closing"}.get(at, "handler")

    def size(self, at):
        """How many bytes it has."""
        kind = self.kind(at)
        if kind in ("opening", "closing", "handler"):
            return {"opening": self.opening_call + 4 - START, "closing": 8, "handler": 4}[kind]
        return self.pair.next(at) - at

    def targets(self, at):
        """Where a computed transfer may go, by its class."""
        kind, (label, past), _ = self.pair.units[at]
        sort, targets = self.pair.graph.classes.get(label, (None, ()))
        return [to + past for to in targets] if sort == kind + "class" else []

    def following(self, at, pending):
        """The states that may follow a state."""
        kind = self.kind(at)
        if kind in ("closing", "handler", "break"):
            return []
        if kind == "opening":
            return [(self.pair.opened(), (self.closing, *pending))]
        what, after = self.pair.units[at][1], at + self.size(at)
        if kind == "direct":
            return [(what, (after, *pending))]
        if kind == "edge":
            return [(what, pending)] + [(after, pending)] * (not self.pair.is_jump(at))
        if kind in PAST:
            found = (after, *pending) if kind == "call" else pending
            return [(BAD_TARGET, pending)] + [(to, found) for to in self.targets(at)]
        if kind in ("return", "leaf return"):
            left = [(pending[0], pending[1:])] if pending else []
            return left + [(BAD_RETURN, pending)] * (kind == "return")
        if kind == "enter":
            return [(after if len(pending) < MOST_CALLS else DEEP, pending)]
        return [(BAD_TARGET, pending)] * (kind in (STOP, GUARDED)) + [(after, pending)] * (kind != STOP)

    def chosen(self, at, pending, x):
        """Which unit the registers at a unit's start choose, or None where nothing is said of that."""
        kind, word = self.kind(at), self.pair.words[(at - CODE) // 4]
        if kind in PAST:
            value = x[word >> 15 & 31] + (word >> 20) - (word >> 31 << 12) & ALL & ~3
            return value + PAST[kind] if value + PAST[kind] in self.targets(at) else BAD_TARGET
        if kind == "return":
            return pending[0] if pending[:1] == (x[1],) else BAD_RETURN
        if kind == GUARDED:
            return at + self.size(at) if x[17] in self.pair.units[at][1] else BAD_TARGET
        return None

    def held(self, machine, hart, at, pending):
        """What does not hold at a unit's start, of the mask, the registers and the shadow stack."""
        x, n, is_fresh = machine.registers[hart], len(pending), self.pair.is_fresh(at)
        on_stack = n - 1 if is_fresh else n
        failing = ["x4"] * (x[4] != MASK) + ["pending"] * ((n == 0) != (at == self.closing))
        failing += ["x3"] * (x[3] != slot(part_of(hart), on_stack)) + ["x1"] * (is_fresh and pending[:1] != (x[1],))
        known = min(self.known.get(hart, 0), max(on_stack, 0))
        while known < on_stack and machine.read(slot(part_of(hart), known), 8) == pending[-1 - known]:
            known += 1
        self.known[hart] = known
        return failing + ["slots"] * (known < on_stack)

    def before(self, machine, hart, pending):
        """The clauses that fail before an instruction runs."""
        pc, (last, was, choice) = machine.pcs[hart], self.at.get(hart, (None, (), None))
        if pc not in self.starts:
            return [] if last is not None and last <= pc < last + self.size(last) else ["Within %s" % (last and self.kind(last))]
        if last is None:
            failing = ["Begin"] * (pc != START)
        else:
            failing = ["Walk " + self.kind(last)] * ((pc, pending) not in self.following(last, was))
            failing += ["Choice " + self.kind(last)] * (choice not in (None, pc))
        self.at[hart] = pc, pending, self.chosen(pc, pending, machine.registers[hart]) if pc in self.pair.units else None
        return failing + (self.held(machine, hart, pc, pending) if pc not in (START, *HANDLERS) else [])

    def after(self, machine, hart, turn):
        """The clauses that fail by how an instruction ended."""
        for a in machine.bytes.was:
            if a >= SHADOW:
                owner, behind = divmod(a - SHADOW, PART_SIZE)
                self.known[owner] = min(self.known.get(owner, 0), max(behind // 8 - 1, 0))
        kind = self.kind(self.at[hart][0]) if hart in self.at else None
        may = turn in ("Ran", "Exit") or (turn == "Break" and kind in ("break", "handler")) or (turn == "LoadFault" and kind == "plain")
        return [] if may else ["End " + turn]


class LeanStatement(Statement):
    """The statement of confined.py, and that of units where a pair splits as a whole."""

    def __init__(self, pair, graph):
        super().__init__(pair.version, graph)
        pair.split()
        is_whole = pair.unfit is None and pair.opened() is not None
        self.units = UnitStatement(pair) if is_whole else None

    def after_step(self, machine, hart, pending):
        failing = self.units.before(machine, hart, pending) if self.units else []
        more, turn, newer = super().after_step(machine, hart, pending)
        return failing + more + (self.units.after(machine, hart, turn) if self.units else []), turn, newer


class Left(Exception):
    """A run leaves its graph: where and how."""


class LeanRun(Run):
    """A run as `Run` has it, which stops where it leaves its graph."""

    MACHINE = Watched

    def __init__(self, built, pair, script, given, limit):
        self.statement, self.failure = LeanStatement(pair, built.graph), None
        self.pending = [()] * script.harts
        try:
            super().__init__(built._replace(starts=pair.starts()), script, given, limit)
        except Left as left:
            self.failure = left.args[0]

    def take(self, built, hart):
        pc = self.machine.pcs[hart]
        self.walks[hart] += [pc] * (pc in built.starts)
        self.machine.bytes.was.clear()
        failing, _, self.pending[hart] = self.statement.after_step(self.machine, hart, self.pending[hart])
        self.stop, self.steps = self.machine.stop, self.steps + 1
        self.hart = hart if self.stop else self.hart
        if failing:
            raise Left(Failure(self.steps, hart, pc, tuple(failing)))


class HostileRun(LeanRun):
    """A run under an attacker who clears what the stack keeps of pending sites; what he writes is recorded, by the step before it."""

    def __init__(self, *given):
        self.record = []
        super().__init__(*given)

    def take(self, built, hart):
        x, part = self.machine.registers[hart], part_of(hart)
        pending = {self.machine.read(at, 8) for at in range(slot(part, 0), min(x[3], part + PART_SIZE), 8)}
        for at in range(x[2], x[2] + 4096, 8):
            if at + 8 <= DATA_END and self.machine.read(at, 8) in pending:
                self.record.append((self.steps, at))
                self.machine.write(at, 8, 0)
        super().take(built, hart)
