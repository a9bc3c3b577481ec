"""The statement `IsConfined` of crates/cfi_confined/specs/Confined.antt, definition by definition and of all versions, over the machine of
tools/simulator.

It reads that page, the machine and the graph's lines: no unit, no template and no rule. The head of each function names the
definition that it is. Where the statement asks for some `newer` list of pending calls, `moves` gives the one that there can be, since
its rows exclude each other. No pc from which a step may run on is below 76, so that a difference is that of natural numbers.
"""

from functools import lru_cache
from typing import NamedTuple, Optional

from tests.model.rules import branch_offset
from tests.shared.units import first_unit
from tools.simulator.machine import CODE as CODE_START, CODE_SIZE, CODE_TAIL, DATA_END, SHADOW, SHADOW_SIZE, START, Machine

PART_SIZE, MOST_PENDING = SHADOW_SIZE[1], 8191
TURNS = {"exit": "Exit", "break": "Break", "load": "LoadFault", "store": "StoreFault", "fetch": "FetchFault", "illegal": "Illegal"}


class Profile(NamedTuple):
    """`Profile` of rv_image's MemoryMap.antt, without the size of the shadow stack, which the machine knows."""
    harts: int
    opening_call: int
    closing: int
    units_from: int
    callee_saves: bool


HARTS = {1: 1, 2: 8}  # by the version of an image


def pair_profile(version, graph):
    """`pair_profile`, by the versions of an image and a graph."""
    first = first_unit(version, graph)
    return Profile(HARTS[version], first - 12, first - 8, first, graph == 3)


class Instr(NamedTuple):
    """`Instr`, as far as the statement tells instructions apart: `imm` is a branch's, in multiples of two bytes."""
    kind: str
    rd: int = 0
    imm: int = 0


class HartStep(NamedTuple):
    """`HartStep`: the hart that takes a step, and the bytes of data that are changed before it, by their addresses."""
    hart: int
    changes: tuple = ()


class Failure(NamedTuple):
    """The step of a run that is not confined, counted from 1, its hart and pc, and the clauses that fail there."""
    step: int
    hart: int
    pc: int
    clauses: tuple


class GraphParts:
    """`GraphParts`: the version and the lines of a graph's text, each line by its words, with numbers in place of digits."""

    def __init__(self, text):
        lines = [line.split(" ") for line in text.decode().split("\n")[:-2]]
        self.version, self.lines = int(lines[0][1]), dict.fromkeys(map(self.line, lines[2:]))

    @staticmethod
    def line(words):
        name, number = words[0], lambda word: int(word, 16)
        if name == "calls":
            return name, tuple(map(int, words[1:]))
        if name == "site":
            return name, number(words[1]), words[2], number(words[3])
        if name in ("edge", "call"):
            return name, number(words[1]), number(words[2])
        return name, number(words[1]), tuple(map(number, words[2:]))

    def calls_in(self):
        """`calls_in` of cfi_graph's Graph.antt."""
        first = next(iter(self.lines), ("",))
        return first[1] if first[0] == "calls" else None


class Noted(dict):
    """A memory that notes what stood where bytes are written."""

    def __init__(self, content):
        super().__init__(content)
        self.was = {}

    def __setitem__(self, address, byte):
        self.was.setdefault(address, self.get(address, 0))
        super().__setitem__(address, byte)


class Watched(Machine):
    """The machine of tools/simulator, whose data are changed between steps, and which notes what it writes, its steps and its stop."""

    def __init__(self, version, code, data, given, harts):
        super().__init__(version, code, data, given, harts)
        self.bytes, self.steps, self.stop = Noted(self.bytes), 0, None

    def step(self, hart):
        self.steps, self.stop = self.steps + 1, super().step(hart)
        return self.stop

    def disturb(self, changes):
        """`disturbed`: changes are of data bytes alone, as `IsDataChange` has them."""
        for address, byte in changes:
            assert 0 <= address < DATA_END and 0 <= byte < 256
            self.bytes[address] = byte
        self.bytes.was.clear()


def started(built, harts=1, given=b""):
    """A machine where `run` starts it: `start_hart` and `start_shared`, one of the states of `MayStart`."""
    return Watched(built.version, built.code, built.data, given, harts)


def may_start(built, machine):
    """`MayRun` and `MayStart`: each hart at the opening with its number in x10, and the image's code in memory."""
    kept = {CODE_START + k: byte for k, byte in enumerate(built.code)}
    found = {at: byte for at, byte in machine.bytes.items() if CODE_START <= at < CODE_START + CODE_SIZE + CODE_TAIL}
    return (1 <= len(machine.pcs) <= HARTS[built.version] and found == kept
            and all(pc == START for pc in machine.pcs) and all(x[10] == k and x[0] == 0 for k, x in enumerate(machine.registers)))


@lru_cache(maxsize=None)
def is_instruction(word):
    """Whether a word is one: whether the machine's step is not stopped by it as illegal."""
    stop = Machine(1, bytes(START - CODE_START) + word.to_bytes(4, "little"), b"", b"", 1).step(0)
    return stop is None or stop[0] != "illegal"


@lru_cache(maxsize=None)
def decoded(word):
    """`decoded`: of a word that is no instruction None."""
    opcode, rd = word & 127, word >> 7 & 31
    if not is_instruction(word):
        return None
    if opcode == 0x63:
        return Instr("Branch", imm=branch_offset(word) % 2**13 // 2)
    if opcode in (0x6F, 0x67):
        return Instr("Jal" if opcode == 0x6F else "Jalr", rd)
    return Instr("Ecall" if word == 0x00000073 else "other")


def part_of(hart):
    """`part_of`"""
    return SHADOW + PART_SIZE * hart


def slot(part, n):
    """`slot`"""
    return part + 8 + 8 * n


def row_of(instr):
    """The row of `Moves` that an instruction has."""
    if instr is None or instr.kind not in ("Jal", "Jalr"):
        return instr.kind if instr else "None"
    return "%s x%d" % (instr.kind, instr.rd)


class Statement:
    """`IsConfined` of the images of a version and a graph. A method answers whether the definition of its name holds; what moves
    pending calls answers those that are pending then, the newest first, or None."""

    def __init__(self, version, graph):
        self.graph = GraphParts(graph)
        self.p = pair_profile(version, self.graph.version)

    def has(self, *line):
        """`Contains graph.lines`"""
        return line in self.graph.lines

    def before_site(self, kind):
        """`before_site`"""
        return 56 if self.graph.version == 3 else {"jump": 48, "call": 76}[kind]

    def before_call(self):
        """`before_call`"""
        return 0 if self.graph.version == 3 else 28

    def past_target(self, kind):
        """`past_target`"""
        return 8 if (self.graph.version, kind) == (3, "call") else 0

    def most_skip(self):
        """`most_skip`"""
        return 64

    def serves(self, name, kind):
        """`Class` or `class_line`: whether a class by this name of its line serves a kind."""
        return name in ("class", kind + "class")

    def is_site_to(self, kind, site, to):
        """`IsSiteTo`"""
        lines = self.graph.lines
        return any(self.serves(line[0], kind) and self.has("site", site, kind, line[1]) and to - self.past_target(kind) in line[2]
                   for line in lines if line[0].endswith("class"))

    def no_site(self, site):
        """`NoSite`"""
        return not any(line[:2] == ("site", site) for line in self.graph.lines)

    def call_line(self, pc):
        """`call_line`"""
        return START if pc == self.p.opening_call else pc - self.before_call()

    def is_skip(self, code, pc, to):
        """`IsSkip`"""
        return to == pc + 4 or to == pc + 8 or (pc < to <= pc + self.most_skip() and code(to) == Instr("Ecall"))

    def is_handler(self, a):
        """`IsHandler`"""
        return CODE_START <= a < START

    def leads_over(self, instr):
        """`LeadsOver`"""
        return instr is not None and instr.kind == "Branch" and instr.imm == 4

    def branch_moves(self, code, pc, to):
        """`BranchMoves`"""
        return self.is_skip(code, pc, to) or self.has("edge", pc, to)

    def jump_moves(self, code, pc, to):
        """`JumpMoves`"""
        return self.is_handler(to) or self.has("edge", pc, to) or (self.leads_over(code(pc - 4)) and self.has("edge", pc - 4, to))

    def computed_moves(self, pc, pending, to):
        """`ComputedMoves`"""
        site = pc - self.before_site("jump")
        if self.no_site(site):
            return pending[1:] if pending[:1] == (to,) else None
        return pending if self.is_site_to("jump", site, to) else None

    def moves(self, code, instr, pc, pending, to):
        """`Moves`"""
        row = row_of(instr)
        if row == "None":
            return None
        if row == "Branch":
            return pending if self.branch_moves(code, pc, to) else None
        if row == "Jal x0":
            return pending if self.jump_moves(code, pc, to) else None
        if row == "Jal x1":
            return (pc + 4, *pending) if self.has("call", self.call_line(pc), to) else None
        if row == "Jalr x0":
            return self.computed_moves(pc, pending, to)
        if row == "Jalr x1":
            return (pc + 4, *pending) if self.is_site_to("call", pc - self.before_site("call"), to) else None
        if instr.kind in ("Jal", "Jalr"):
            return None
        return pending if to == pc + 4 else None

    def may_stop(self, pc, turn):
        """`MayStop`"""
        if turn in ("Ran", "Exit"):
            return START <= pc
        if turn == "Break":
            return self.is_handler(pc) or self.p.units_from <= pc
        return turn == "LoadFault" and self.p.units_from <= pc

    def is_allowed(self, number):
        """`IsAllowed`"""
        calls = self.graph.calls_in()
        return calls is None or number in calls

    def may_ecall(self, instr, pc, number):
        """`MayEcall`"""
        if row_of(instr) != "Ecall":
            return True
        return (self.p.units_from <= pc and self.is_allowed(number)) or (pc == self.p.closing + 4 and number == 93)

    def is_kept(self, part, n, a):
        """The addresses at which `WritesOwn` asks for what was there."""
        return DATA_END <= a and (a < slot(part, n) or slot(part, n) + 8 <= a or part + PART_SIZE <= a)

    def writes_own(self, part, n, memory):
        """`WritesOwn`, by the bytes that the step has written."""
        return all(memory[a] == byte for a, byte in memory.was.items() if self.is_kept(part, n, a))

    def writes_data(self, memory):
        """`WritesData`, by these bytes."""
        return all(memory[a] == byte for a, byte in memory.was.items() if DATA_END <= a)

    def is_saved(self, at, site, memory):
        """Whether a slot has what it had before the step, or a return address, as `Writes` asks."""
        before = bytes(memory.was.get(a, memory.get(a, 0)) for a in range(at, at + 8))
        after = bytes(memory.get(a, 0) for a in range(at, at + 8))
        return after in (before, site.to_bytes(8, "little"))

    def writes(self, part, pending, memory):
        """`Writes`"""
        if not self.p.callee_saves:
            return self.writes_own(part, len(pending), memory)
        if not pending:
            return self.writes_data(memory)
        newest = len(pending) - 1
        return self.writes_own(part, newest, memory) and self.is_saved(slot(part, newest), pending[0], memory)

    def most_calls(self):
        """`most_calls`"""
        return MOST_PENDING + 1 if self.p.callee_saves else MOST_PENDING

    def may_be_pending(self, newer):
        """`length newer ≤ most_calls p`, in `IsConfinedStep`."""
        return len(newer) <= self.most_calls()

    def after_step(self, machine, hart, pending):
        """`IsConfinedStep` of the next step: the clauses that fail, how it ended, and the pending calls after it."""
        code = lambda a: decoded(machine.read(a, 4))  # `fetched t.shared.memory`: no branch and no jump writes memory
        pc, number = machine.pcs[hart], machine.registers[hart][17]
        instr, stop = code(pc), machine.step(hart)
        turn = TURNS[stop[0]] if stop else "Ran"
        failing = [] if self.may_stop(pc, turn) else ["MayStop " + turn]
        failing += [] if self.may_ecall(instr, pc, number) else ["MayEcall"]
        failing += [] if self.writes(part_of(hart), pending, machine.bytes) else ["Writes"]
        newer = pending
        if turn == "Ran":
            newer = self.moves(code, instr, pc, pending, machine.pcs[hart])
            if newer is None:
                failing.append("Moves " + row_of(instr))
            elif not self.may_be_pending(newer):
                failing.append("most_calls")
        return failing, turn, newer

    def failure(self, machine, steps) -> Optional[Failure]:
        """`ConfinedAlong`, with no call pending at first: where the run fails, or None of a run that is confined. After a stop no
        step is taken."""
        pending = [()] * len(machine.pcs)
        for number, (hart, changes) in enumerate(steps, 1):
            machine.disturb(changes)
            pc = machine.pcs[hart]
            failing, turn, pending[hart] = self.after_step(machine, hart, pending[hart])
            if failing:
                return Failure(number, hart, pc, tuple(failing))
            if turn != "Ran":
                return None
        return None
