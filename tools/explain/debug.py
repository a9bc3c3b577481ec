"""What debugging information says of an object's functions and variables: their types, and in which registers variables are where."""

import struct
from typing import NamedTuple

from .c_types import STRUCTURES, attribute, key, signature, type_of
from .dwarf import FAULTS, info_of, place_of

ADDR, REG0, REG31, BREG0, BREG31, FBREG, PIECE, CFA, STACK_VALUE, ADDRX = 0x03, 0x50, 0x6F, 0x70, 0x8F, 0x91, 0x93, 0x9C, 0x9F, 0xA1
NEW_BASE = 2**64 - 1
VARIABLES = {"DW_TAG_variable", "DW_TAG_formal_parameter"}
EXPRESSIONS = {"DW_FORM_exprloc", "DW_FORM_block1", "DW_FORM_block2", "DW_FORM_block4", "DW_FORM_block"}
END, BASE_X, STARTX_ENDX, STARTX_LENGTH, PAIR, DEFAULT, BASE, START_END, START_LENGTH = range(9)


class Function(NamedTuple):
    """The type of a function by its parameters and result, or None, its result, how a variable's place on the stack is counted, and the
    types of its parameters, where it is no copy that may have others."""
    signature: object
    result: object
    frame: object
    parameters: list


class Range(NamedTuple):
    """Where a variable is a register and an offset, or so far from its function's frame base, and its type; of a piece of one, which is
    a register, where in the variable it is."""
    first: int
    end: int
    register: object
    offset: int
    type: object
    inner: object = None


def leb(content, at, is_signed=False):
    """A number of LEB128, and where it ends."""
    value, shift = 0, 0
    while True:
        byte = content[at]
        value, shift, at = value | (byte & 127) << shift, shift + 7, at + 1
        if byte < 128:
            return (value - (1 << shift) if is_signed and byte & 64 else value), at


class Lists:
    """The lists of places of a unit, as DWARF 5 has them, or the versions before it."""

    def __init__(self, info, unit):
        self.info, self.unit, self.is_older = info, unit, unit["version"] < 5
        section = info.debug_loc_sec if self.is_older else info.debug_loclists_sec
        self.content = section.stream.getvalue() if section and hasattr(section.stream, "getvalue") else b""

    def address(self, at):
        return struct.unpack_from("<Q", self.content, at)[0], at + 8

    def indexed(self, at):
        number, at = leb(self.content, at)
        return self.info.get_addr(self.unit, number), at

    def rows(self, at):
        """The first and the end address, and the expression, of each row of a list."""
        base = attribute(self.unit.get_top_DIE(), "DW_AT_low_pc") or 0
        if self.is_older:
            yield from self.older_rows(at, base)
            return
        while self.content[at] != END:
            kind = self.content[at]
            first, end, at = self.bounds(kind, at + 1, base)
            if kind in (BASE_X, BASE):
                base = first
                continue
            length, at = leb(self.content, at)
            yield first, end, self.content[at:at + length]
            at += length

    def older_rows(self, at, base):
        """The same before DWARF 5: two addresses from a base on, or a new base."""
        while True:
            first, end = struct.unpack_from("<QQ", self.content, at)
            if first == end == 0:
                return
            if first == NEW_BASE:
                base, at = end, at + 16
                continue
            length, = struct.unpack_from("<H", self.content, at + 16)
            yield base + first, base + end, self.content[at + 18:at + 18 + length]
            at += 18 + length

    def bounds(self, kind, at, base):
        """What stands before an expression: two addresses, and where it ends."""
        if kind in (BASE_X, BASE):
            first, at = self.indexed(at) if kind == BASE_X else self.address(at)
            return first, first, at
        if kind == DEFAULT:
            return 0, 0, at
        if kind == PAIR:
            first, at = leb(self.content, at)
            end, at = leb(self.content, at)
            return base + first, base + end, at
        first, at = self.indexed(at) if kind in (STARTX_ENDX, STARTX_LENGTH) else self.address(at)
        if kind == START_END:
            end, at = self.address(at)
        else:
            end, at = self.indexed(at) if kind == STARTX_ENDX else leb(self.content, at)
        return first, end if kind in (STARTX_ENDX, START_END) else first + end, at


class Debug:
    """Functions by their place, variables by theirs with their types, ranges by section, and the structures that are whole by their key."""

    def __init__(self, path):
        self.functions, self.variables, self.ranges, self.complete = {}, {}, {}, {}
        try:
            info, units = info_of(path)
            for unit in units:
                self.lists = Lists(info, unit)
                self.read(info, unit, unit.get_top_DIE(), (0, 0))
        except FAULTS:
            pass  # what pyelftools cannot read is not known

    def read(self, info, unit, die, bounds):
        """Takes in an entry and those within it. The bounds are those of the innermost entry that has some."""
        if die.tag in STRUCTURES and not attribute(die, "DW_AT_declaration"):
            self.complete.setdefault(key(die), die)
        elif die.tag == "DW_TAG_subprogram" and "DW_AT_low_pc" in die.attributes:
            self.functions[place_of(attribute(die, "DW_AT_low_pc"))] = Function(
                signature(die), type_of(die), frame_of(die), own_parameters(die))
        elif die.tag in VARIABLES and "DW_AT_location" in die.attributes:
            self.take(info, unit, die, bounds)
        if die.tag != "DW_TAG_compile_unit" and "DW_AT_low_pc" in die.attributes and "DW_AT_high_pc" in die.attributes:
            first, high = die.attributes["DW_AT_low_pc"].value, die.attributes["DW_AT_high_pc"]
            bounds = first, high.value if high.form == "DW_FORM_addr" else first + high.value
        for child in die.iter_children():
            self.read(info, unit, child, bounds)

    def take(self, info, unit, die, bounds):
        """Takes in where a variable is."""
        location, kind = die.attributes["DW_AT_location"], type_of(die)
        if location.form not in EXPRESSIONS:
            for first, end, expression in self.lists.rows(location.value):
                self.put(first, end, expression, kind)
            return
        expression = bytes(location.value)
        if expression[:1] == bytes([ADDR]) and len(expression) == 9:
            self.variables[place_of(struct.unpack_from("<Q", expression, 1)[0])] = kind
        elif expression[:1] == bytes([ADDRX]) and leb(expression, 1)[1] == len(expression):
            self.variables[place_of(info.get_addr(unit, leb(expression, 1)[0]))] = kind
        else:
            self.put(*bounds, expression, kind)

    def put(self, first, end, expression, kind):
        """Takes in that a variable is in a register, or in its frame, from an address to another."""
        section, bounds = place_of(first)[0], (place_of(first)[1], place_of(end)[1])
        found = self.ranges.setdefault(section, [])
        for register, offset, inner in registers_of(expression):
            found.append(Range(*bounds, register, offset, kind, inner))
        if expression[:1] == bytes([FBREG]) and leb(expression, 1)[1] == len(expression):
            found.append(Range(*bounds, None, leb(expression, 1, True)[0], kind))


def registers_of(expression):
    """The registers of an expression: each with what is added to it, and where its piece is in the variable, or None for the whole."""
    if len(expression) == 1 and REG0 <= expression[0] <= REG31:
        yield expression[0] - REG0, 0, None
    elif BREG0 <= expression[0] <= BREG31 and expression[-1] == STACK_VALUE and leb(expression, 1)[1] == len(expression) - 1:
        yield expression[0] - BREG0, leb(expression, 1, True)[0], None
    elif PIECE in expression:
        yield from pieces_of(expression)


def pieces_of(expression):
    """The pieces of a variable that are registers, up to the first one that is something else."""
    at, inner = 0, 0
    while at < len(expression):
        register = expression[at] - REG0 if REG0 <= expression[at] <= REG31 else None
        at += register is not None
        if at == len(expression) or expression[at] != PIECE:
            return
        size, at = leb(expression, at + 1)
        if register is not None:
            yield register, 0, inner
        inner += size


def own_parameters(die):
    """The types of a function's parameters, in their order; none of a copy, whose parameters an optimizer may have changed."""
    rows = die.iter_children() if "DW_AT_abstract_origin" not in die.attributes else ()
    return [type_of(each) for each in rows if each.tag == "DW_TAG_formal_parameter"]


def frame_of(die):
    """Of what a function counts its variables on the stack: the stack pointer at its start (`CFA`), or a register."""
    base = die.attributes.get("DW_AT_frame_base")
    if base is None or base.form not in EXPRESSIONS or len(base.value) != 1:
        return None
    return CFA if base.value[0] == CFA else base.value[0] - REG0
