"""The statement with a clause switched off, and with a permission taken away: what shows that confined.py can fail and can hold.

Each of `WEAKER` lets pass what one clause forbids, so a row of faults.py has to pass under it: that whose run, up to the step that
fails, fails by this clause alone. Each of `STRICTER` forbids what one clause permits, so an accepted run has to fail under it. Not
switched off are two rows of `Moves`, which no machine breaks: a word that is no instruction does not run, and what is no
transfer goes on to the next word.
"""


from tests.model.confined import MOST_PENDING, PART_SIZE, Instr, Statement, row_of, slot
from tools.simulator.machine import DATA_END, START


def switched(base=Statement, **methods):
    """The statement with other methods."""
    return type("Switched", (base,), methods)


def letting(row):
    """Lets the instructions of a row of `Moves` lead anywhere."""
    def moves(self, code, instr, pc, pending, to):
        newer = Statement.moves(self, code, instr, pc, pending, to)
        return pending if newer is None and row_of(instr).startswith(row) else newer
    return switched(moves=moves)


def stopping(turn):
    """Lets steps that end so stand anywhere."""
    return switched(may_stop=lambda self, pc, ended: ended == turn or Statement.may_stop(self, pc, ended))


def skipping(is_skip):
    """Lets branches skip so besides."""
    return switched(is_skip=lambda self, code, pc, to: Statement.is_skip(self, code, pc, to) or is_skip(self, code, pc, to))


def calling(may_ecall):
    """Lets system calls be made so besides."""
    return switched(may_ecall=lambda self, instr, pc, number: Statement.may_ecall(self, instr, pc, number) or may_ecall(self, pc, number))


def site_to(serves, is_site):
    """`IsSiteTo` with other asks of the class and of the site line."""
    def is_site_to(self, kind, site, to):
        classes = [line for line in self.graph.lines if line[0].endswith("class")]
        return any(line[:2] == ("site", site) and is_site(line, each, kind) and serves(self, each, kind, to)
                   for line in self.graph.lines for each in classes)
    return switched(is_site_to=is_site_to)


def is_target(self, line, kind, to):
    return self.serves(line[0], kind) and to in line[2]


def has_edge(self, pc):
    return any(line[:2] == ("edge", pc) for line in self.graph.lines)


IS_ECALL = Instr("Ecall")
NO_ECALL = switched(may_ecall=lambda self, *given: True)
# of each the name, the weaker statement, and what it is weaker than
WEAKER = [
    ("MayStop", switched(may_stop=lambda self, *given: True), Statement),
    *[("MayStop of " + turn, stopping(turn), Statement) for turn in ("Ran", "Break", "LoadFault", "StoreFault", "FetchFault", "Illegal")],
    # an exit is an `ecall`, which may not stand there either
    ("MayStop of Exit, without MayEcall", switched(NO_ECALL, may_stop=stopping("Exit").may_stop), NO_ECALL),
    ("MayEcall", NO_ECALL, Statement),
    ("MayEcall: the list", switched(is_allowed=lambda self, number: True), Statement),
    ("MayEcall: past the prologue", calling(lambda self, pc, number: self.graph.calls_in() is None), Statement),
    ("MayEcall: where the closing exits", calling(lambda self, pc, number: number == 93), Statement),
    ("MayEcall: that the closing exits", calling(lambda self, pc, number: pc == self.p.closing + 4), Statement),
    ("Writes", switched(writes=lambda self, *given: True), Statement),
    ("WritesOwn: below the slot", switched(is_kept=lambda self, part, n, a: a >= slot(part, n) and Statement.is_kept(self, part, n, a)),
     Statement),
    ("WritesOwn: behind the slot", switched(
        is_kept=lambda self, part, n, a: DATA_END <= a and (a < slot(part, n) or part + PART_SIZE <= a)), Statement),
    ("WritesOwn: behind the part", switched(
        is_kept=lambda self, part, n, a: DATA_END <= a and not slot(part, n) <= a < slot(part, n) + 8), Statement),
    ("most_calls", switched(may_be_pending=lambda self, newer: True), Statement),
    ("Moves", letting(""), Statement),
    *[("Moves: " + row, letting(row), Statement) for row in ("Branch", "Jal x0", "Jal x1", "Jal x5", "Jalr x0", "Jalr x1", "Jalr x5")],
    ("IsSkip: ahead", skipping(lambda self, code, pc, to: to <= pc + self.most_skip() and code(to) == IS_ECALL), Statement),
    ("IsSkip: how far", skipping(lambda self, code, pc, to: pc < to and code(to) == IS_ECALL), Statement),
    ("IsSkip: to an ecall", skipping(lambda self, code, pc, to: pc < to <= pc + self.most_skip()), Statement),
    ("IsHandler", switched(is_handler=lambda self, a: True), Statement),
    ("LeadsOver", switched(leads_over=lambda self, instr: True), Statement),
    ("LeadsOver: how far", switched(leads_over=lambda self, instr: instr is not None and instr.kind == "Branch"), Statement),
    ("BranchMoves: the edge line's target", switched(
        branch_moves=lambda self, code, pc, to: Statement.branch_moves(self, code, pc, to) or has_edge(self, pc)), Statement),
    ("JumpMoves: the edge line's target", switched(
        jump_moves=lambda self, code, pc, to: Statement.jump_moves(self, code, pc, to) or has_edge(self, pc)), Statement),
    ("call_line: of a call", switched(call_line=lambda self, pc: START if pc == self.p.opening_call else pc), Statement),
    ("call_line: of the opening", switched(call_line=lambda self, pc: pc - self.before_call()), Statement),
    ("NoSite", switched(no_site=lambda self, site: True), Statement),
    ("IsSiteTo: the kind of the site line", site_to(lambda self, line, kind, to: line[0] == "class" and to in line[2],
                                                    lambda line, each, kind: line[3] == each[1]), Statement),
    ("IsSiteTo: the label", site_to(is_target, lambda line, each, kind: line[2] == kind), Statement),
    ("IsSiteTo: the sort of the class", switched(serves=lambda self, name, kind: True), Statement),
    ("IsSiteTo: the target", site_to(lambda self, line, kind, to: self.serves(line[0], kind),
                                     lambda line, each, kind: line[2:] == (kind, each[1])), Statement),
]


def barring(row):
    """Lets no instruction of a row of `Moves` run."""
    return switched(moves=lambda self, code, instr, pc, pending, to: (
        None if row_of(instr) == row else Statement.moves(self, code, instr, pc, pending, to)))


def unless(method, is_barred):
    """The statement whose method also asks that something is not so."""
    whole = getattr(Statement, method)
    return switched(**{method: lambda self, *given: whole(self, *given) and not is_barred(self, *given)})


def at_handler(self, pc, turn):
    return turn == "Break" and pc < START


STRICTER = [
    *[("MayStop of " + turn, unless("may_stop", lambda self, pc, ended, turn=turn: ended == turn))
      for turn in ("Ran", "Exit", "Break", "LoadFault")],
    ("MayStop of Break: in a handler", unless("may_stop", at_handler)),
    ("MayStop of Break: past the prologue", unless("may_stop", lambda self, pc, turn: turn == "Break" and not at_handler(self, pc, turn))),
    ("MayEcall: past the prologue", unless("may_ecall", lambda self, instr, pc, number: instr == IS_ECALL and pc >= self.p.units_from)),
    ("MayEcall: without a list", unless("is_allowed", lambda self, number: self.graph.calls_in() is None)),
    ("MayEcall: under a list", unless("is_allowed", lambda self, number: self.graph.calls_in() is not None)),
    ("MayEcall: in the closing", unless("may_ecall", lambda self, instr, pc, number: instr == IS_ECALL and pc < self.p.units_from)),
    ("WritesOwn: data", switched(is_kept=lambda self, part, n, a: a < DATA_END or Statement.is_kept(self, part, n, a))),
    ("WritesOwn: the slot", switched(is_kept=lambda self, part, n, a: DATA_END <= a)),
    ("most_calls", switched(may_be_pending=lambda self, newer: len(newer) < MOST_PENDING)),
    *[("Moves: " + row, barring(row)) for row in ("Branch", "Jal x0", "Jal x1", "Jalr x0", "Jalr x1", "Ecall", "other")],
    ("IsSkip: the next word", unless("is_skip", lambda self, code, pc, to: to == pc + 4)),
    ("IsSkip: over a word", unless("is_skip", lambda self, code, pc, to: to == pc + 8)),
    ("IsSkip: to an ecall", unless("is_skip", lambda self, code, pc, to: to > pc + 8)),
    ("IsSkip: as far as it may", switched(most_skip=lambda self: 60)),
    ("BranchMoves: along an edge line", unless("branch_moves", lambda self, code, pc, to: not self.is_skip(code, pc, to))),
    ("JumpMoves: to a handler", unless("jump_moves", lambda self, code, pc, to: self.is_handler(to))),
    ("JumpMoves: along its own edge line", unless("jump_moves", lambda self, code, pc, to: self.has("edge", pc, to))),
    ("JumpMoves: along that of the branch over it", switched(leads_over=lambda self, instr: False)),
    ("ComputedMoves: a return", switched(no_site=lambda self, site: False)),
    ("ComputedMoves: a jump", unless("is_site_to", lambda self, kind, site, to: kind == "jump")),
    ("call_line: of the opening", switched(call_line=lambda self, pc: pc - self.before_call())),
    ("call_line: of a call", switched(call_line=lambda self, pc: START)),
    ("IsSiteTo: a class of both", switched(serves=lambda self, name, kind: name == kind + "class")),
    ("IsSiteTo: a class of calls", unless("serves", lambda self, name, kind: name == "callclass")),
    ("IsSiteTo: a class of jumps", unless("serves", lambda self, name, kind: name == "jumpclass")),
    ("before_site", switched(before_site=lambda self, kind: {"jump": 52, "call": 76}[kind])),
    ("before_site of a call", switched(before_site=lambda self, kind: {"jump": 48, "call": 80}[kind])),
    ("before_call", switched(before_call=lambda self: 32)),
]
