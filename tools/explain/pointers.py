"""What a computed jump or call goes by: where its pointer comes from, worked out along the instructions of each function.

What debugging information says of a variable in a register is used beside what the instructions tell; where the two differ, nothing is
known. It is not trusted: a policy that is too narrow halts a program that is right, and no more.
"""

from . import c_types
from .debug import CFA
from .dwarf import FAULTS
from .elf import AUIPC, CALL, CALL_PLT, GOT_HI20, HI20, JALR, PCREL_HI20, fields
from .known import Tables, Types, added, immediate, joined, signed, summed
from .numbers import ADDI, LUI, STORE
from .texts import Wrong
from .units import BRANCH, JAL, SYSTEM, branch_offset, jal_target

LOAD, REGISTERS = 0x03, 0x33
ANCHOR = ".LANCHOR"  # from where gcc counts
LO12_I, PCREL_LO12_I, DIRECT = 27, 24, (16, 17)
CALLER_SAVED = [1, *range(5, 8), *range(10, 18), *range(28, 32)]
STACK, FRAME_POINTER, RESULT, FIRST, LAST = 2, 8, 10, 10, 17


class Walk:
    """What is known at each instruction of a function, and at its computed jumps and calls."""

    def __init__(self, read, types, flow, function, tables):
        self.read, self.types, self.flow, self.tables = read, types, flow, tables
        self.section, self.start, self.end = function.section, function.value, function.value + function.size
        rows = [row for row in types.ranges.get(self.section, []) if row.first < self.end and row.end > self.start]
        self.ranges = [row if row.register is None else row._replace(first=self.earlier(row)) for row in rows]
        self.by_place, self.sites, self.frame = {self.start: self.at_start()}, {}, self.frame_offset()
        waiting = [self.start]
        while waiting:
            waiting += self.step(waiting.pop())

    def at_start(self):
        """What is known at the start: the stack pointer, and parameters in registers as the calling convention has them."""
        state, register = {STACK: ("frame", 0, True)}, FIRST
        told = self.types.functions.get((self.section, self.start))
        for kind in told.parameters if told else ():
            values = self.types.of_parameter(kind)
            if values is None or register + len(values) > LAST + 1:
                break
            for value in values:
                self.put(state, register, value)
                register += 1
        return state

    def earlier(self, row):
        """From where on a register has what a variable is said to be in it: compilers use it before they say so."""
        offset = row.first
        while offset > self.start:
            opcode, rd, _ = fields(self.word(offset - 4))
            if opcode in (BRANCH, JAL, JALR, SYSTEM) or opcode != STORE and rd == row.register:
                break
            offset -= 4
        return offset

    def word(self, offset):
        return self.read.word_at((self.section, offset)) or 0

    def frame_offset(self):
        """How far the frame base lies from the stack pointer at the start, or None."""
        told = self.types.functions.get((self.section, self.start))
        base = told.frame if told else None
        if base == STACK:
            first = self.word(self.start)
            is_room = fields(first) == (ADDI, STACK, STACK)
            return immediate(first) if is_room else 0
        return 0 if base in (CFA, FRAME_POINTER) else None

    def step(self, offset):
        """Goes through an instruction, and answers the places behind it of which something less is known now."""
        state = self.with_variables(dict(self.by_place[offset]), offset)
        changed = []
        for to in self.act(state, offset):
            if self.start <= to < self.end and self.join(to, state):
                changed.append(to)
        return changed

    def join(self, to, state):
        """Takes in what is known on one more way to a place."""
        before = self.by_place.get(to)
        if before is None:
            self.by_place[to] = state
            return True
        both = {name: joined(before[name], state[name], self.types) for name in before.keys() & state.keys()}
        both = {name: value for name, value in both.items() if value is not None}
        self.by_place[to] = both
        return both != before

    def with_variables(self, state, offset):
        """What debugging information says of registers beside what is known of them."""
        for row in self.ranges:
            if row.register is None or not row.first <= offset < row.end:
                continue
            self.put(state, row.register, self.types.settled(state.get(row.register), self.types.of_row(row)))
        return state

    def act(self, state, offset):
        """Does an instruction, and answers where it goes on."""
        place, word = (self.section, offset), self.word(offset)
        opcode, rd, _ = fields(word)
        rows = self.read.at_place(place)
        called = next((row for row in rows if row.kind in (CALL, CALL_PLT)), None)
        if called:
            is_call = fields(self.word(offset + 4))[1] == 1
            return self.after_call(state, self.result_of(self.read.target(called)), offset + 8) if is_call else self.inner(called)
        if opcode in (BRANCH, JAL):
            target = self.direct(place, word, rows)
            inner = [target[1]] if target[0] == self.section else []
            if opcode == JAL:
                return self.after_call(state, self.result_of(target), offset + 4) if rd == 1 else inner
            return [offset + 4] + inner
        if opcode == JALR:
            return self.computed(state, place, word)
        if opcode == STORE:
            self.store(state, word)
        elif rd:
            self.put(state, rd, self.value(state, place, word, rows))
        return [offset + 4]

    def direct(self, place, word, rows):
        """Where a branch or a jump of one word goes."""
        named = next((self.read.target(row) for row in rows if row.kind in DIRECT), None)
        own = place[1] + branch_offset(word) if fields(word)[0] == BRANCH else jal_target(word, place[1])
        return named or (place[0], own)

    def inner(self, row):
        """Where a jump of two words goes on within the function."""
        target = self.read.target(row)
        return [target[1]] if target and target[0] == self.section else []

    def result_of(self, place):
        told = self.types.functions.get(place)
        return self.types.of_result(told.result) if told else []

    @staticmethod
    def put(state, rd, value):
        state.pop(rd, None)
        if value is not None:
            state[rd] = value

    def after_call(self, state, result, offset):
        for register in CALLER_SAVED:
            state.pop(register, None)
        for number, value in enumerate(result):
            self.put(state, RESULT + number, value)
        return [offset]

    def computed(self, state, place, word):
        """A computed jump or call, or a return."""
        _, rd, rs1 = fields(word)
        kind = self.flow.sites.get(place)
        if kind is None:
            return []
        value = state.get(rs1)
        self.sites[place] = joined(self.sites[place], value, self.types) if place in self.sites else value
        if kind == "jump":
            labels = value[1] if value and value[0] in ("short", "codes") and value[1] else self.flow.targets(place) - self.flow.starts
            return [at for section, at in labels if section == self.section]
        result = self.types.of_result(self.types.results.get(value[1])) if value and value[0] == "fun" else []
        return self.after_call(state, result, place[1] + 4)

    def store(self, state, word):
        """A store to the stack; of another nothing is known."""
        base, source = state.get(word >> 15 & 31), state.get(word >> 20 & 31)
        if not base or base[0] != "frame" or not base[2]:
            return
        at = base[1] + signed((word >> 25) << 5 | word >> 7 & 31)
        width = 1 << (word >> 12 & 3)
        for name in [name for name in state if isinstance(name, tuple) and at - 8 < name[1] < at + width]:
            state.pop(name)
        if width == 8 and source is not None:
            state["slot", at] = source

    def value(self, state, place, word, rows):
        """What is known of what an instruction writes."""
        opcode, _, rs1 = fields(word)
        funct3, base = word >> 12 & 7, ("int", 0) if rs1 == 0 else state.get(rs1)
        upper = next((row for row in rows if row.kind in (HI20, PCREL_HI20, GOT_HI20)), None)
        is_lower = any(row.kind in (LO12_I, PCREL_LO12_I) for row in rows)
        if opcode in (LUI, AUIPC):
            return self.address(upper) if upper else ("int", signed(word >> 12, 20) << 12) if opcode == LUI else None
        if opcode == ADDI and funct3 == 0:
            return base if is_lower else added(base, immediate(word))
        if opcode == ADDI and funct3 == 1:
            return ("int", base[1] << (word >> 20 & 63)) if base and base[0] == "int" else None
        if opcode == REGISTERS and word >> 25 == 0 and funct3 == 0:
            return summed(base, ("int", 0) if word >> 20 & 31 == 0 else state.get(word >> 20 & 31))
        if opcode != LOAD:
            return None
        address = base if is_lower else added(base, immediate(word))
        if funct3 != 3:
            return ("short", self.tables.labels(address)) if funct3 in (2, 6) else None
        return self.loaded(state, address, place[1])

    def address(self, row):
        """What the upper part of an address is taken for: the whole."""
        symbol, target = self.read.symbols[row.symbol], self.read.target(row)
        if target is None:
            return None
        if self.read.is_code(target[0]):
            value = "codes", frozenset([target])
        else:
            is_near = symbol.name.startswith(ANCHOR) or not symbol.name
            variable = self.types.variable(target) if is_near else None
            start = variable[0] if variable else symbol.value
            value = "near" if is_near else "data", target[0], start, target[1] - start, True
        return ("slot", value) if row.kind == GOT_HI20 else value

    def loaded(self, state, address, here):
        """What is known of the eight bytes at an address, by an instruction at an offset."""
        if address is None:
            return None
        if address[0] == "slot":
            return address[1]
        if address[0] == "ptr":
            values = {self.types.loaded(view.kind.die, view.offset, view.is_all) for view in address[1]} - {None}
            return values.pop() if len(values) == 1 else None
        if address[0] == "near" and address[4]:
            start = self.types.variable((address[1], address[2] + address[3]))
            address = ("data", address[1], start[0], address[2] + address[3] - start[0], True) if start else address
        if address[0] == "data":
            _, section, start, offset, is_all = address
            kind = self.types.variables.get((section, start))
            return self.tables.codes(section, start, kind, offset, is_all, self.types.complete) or self.types.loaded(kind, offset, is_all)
        return self.of_stack(state, address, here) if address[0] == "frame" else None

    def of_stack(self, state, address, here):
        """What is known of a slot of the stack, or of a variable there; with elements added of any array there."""
        _, at, is_all = address
        slot = state.get(("slot", at)) if is_all else None
        rows = [row for row in self.ranges if row.register is None and row.first <= here < row.end] if self.frame is not None else []
        if not is_all:
            values = {value for row in rows for value in self.types.element(row.type, at - self.frame - row.offset)}
        else:
            rows = [row for row in rows if 0 <= at - self.frame - row.offset < max(c_types.size_of(row.type), 1)]
            values = {self.types.loaded(row.type, at - self.frame - row.offset, True) for row in rows}
        return self.types.settled(slot, values.pop() if len(values) == 1 else None)


def sites_of(read, flow):
    """By each computed jump and call what is known of its pointer, or None; and the types."""
    types, tables, found = Types(read), Tables(read), dict.fromkeys(flow.sites)
    if not types.functions:
        raise Wrong("no object has debugging information that pyelftools can read: compile with -g")
    functions = [function for rows in read.functions.values() for function in rows if function.size]
    try:
        for function in functions:
            found.update(Walk(read, types, flow, function, tables).sites)
    except FAULTS as fault:
        raise Wrong("debugging information cannot be read by pyelftools: %s" % (fault or type(fault).__name__)) from fault
    return found, types
