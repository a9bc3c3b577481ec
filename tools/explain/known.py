"""What is known of a value of a program, by its instructions and by the types that debugging information has.

Of each register, and of each slot of the stack, one of these is known, or nothing:

    fun     a pointer to functions of a type, by its signature
    codes   one of some places of code
    ptr     an address within objects of types: all the ways to see it
    data    an address of data: the section, where its variable begins, how far, and whether that is all
    near    the same, where the compiler counts it from another variable, so that with elements added nothing is known (gcc's anchors)
    frame   an address on the stack, from the stack pointer at the function's start on
    int     a number
    short   what was loaded from less than 8 bytes, as of a table of labels, and what was added to that: the labels, if it was one
    void    a pointer to anything
"""

import bisect
from typing import NamedTuple

from . import c_types
from .debug import Debug
from .elf import ABS32, ABS64, ADD32, HI20, OWN, PCREL_HI20

WRITE = 1
RELOCATED = ".data.rel.ro"  # constants with addresses, by -fpic
VOID = ("void",)


class Types:
    """What debugging information says, of one object or of several as one."""

    def __init__(self, read):
        parts = getattr(read, "parts", [read])
        before = getattr(read, "sections_before", [0])
        self.functions, self.variables, self.ranges, self.complete, self.results = {}, {}, {}, {}, {}
        for first, part in zip(before, parts):
            found, moved = Debug(part.path), lambda rows, first=first: {(place[0] + first, place[1]): row for place, row in rows.items()}
            self.functions.update(moved(found.functions))
            self.variables.update(moved(found.variables))
            self.ranges.update({section + first: rows for section, rows in found.ranges.items()})
            self.complete = {**found.complete, **self.complete}
        self.starts = sorted(self.variables)

    def of_type(self, kind):
        """What is known of a value of a type."""
        if kind is None or kind.tag not in c_types.POINTERS:
            return None
        to = c_types.type_of(kind)
        if to is None or c_types.attribute(kind, "DW_AT_name") == c_types.VIRTUAL:
            return VOID if to is None else None
        if to.tag not in c_types.FUNCTIONS:
            return "ptr", frozenset([View(Kind(to), 0, True)])
        told = c_types.signature(to)
        self.results.setdefault(told, c_types.type_of(to))
        return ("fun", told) if told else None

    def variable(self, place):
        """Where the variable begins that a place lies in, and its type, or None."""
        last = bisect.bisect_right(self.starts, place) - 1
        if last < 0 or self.starts[last][0] != place[0]:
            return None
        start, kind = self.starts[last], self.variables[self.starts[last]]
        return (start[1], kind) if place[1] < start[1] + max(c_types.size_of(kind), 1) else None

    @staticmethod
    def settled(known, told):
        """What is known of a value by the instructions and by the type of a variable that it is: of an address both."""
        if told is None or known == told or told == VOID and known is not None:
            return known
        if known is None or known == VOID:
            return told
        if known[0] == told[0] == "ptr":
            return "ptr", known[1] | told[1]
        return None if known[0] == told[0] == "fun" else known

    def of_result(self, kind):
        """What is known of the registers of a result: of a structure of two words of each."""
        if kind is not None and kind.tag in c_types.STRUCTURES and c_types.size_of(kind) <= 16:
            return [self.loaded(kind, 0, True), self.loaded(kind, 8, True)]
        return [self.of_type(kind)]

    def of_parameter(self, kind):
        """What is known of the registers of a parameter, or None where it may not be in the next ones."""
        size = c_types.size_of(kind)
        if size > 16 and kind.tag in c_types.STRUCTURES:
            return [("ptr", frozenset([View(Kind(kind), 0, True)]))]
        if size > 8:
            return self.of_result(kind) if size <= 16 and kind.tag in c_types.STRUCTURES else None
        return self.of_result(kind)[:1] if size else None

    def of_row(self, row):
        """What is known of the register that a variable is in, or a word of one, or that an expression of one is."""
        if row.inner is not None:
            return self.loaded(row.type, row.inner, True)
        return added(self.of_type(row.type), -row.offset)

    def loaded(self, kind, offset, is_all):
        """What is known of the eight bytes at an offset of a type, or of one of as many objects of it as one likes."""
        if is_all:
            ways = c_types.found_at(kind, offset, self.complete) if 0 <= offset < c_types.size_of(kind) else []
            values = {self.of_type(way) for way in ways}
        else:
            values = self.element(kind, offset) | (self.stepped(kind, offset) if kind is not None else set())
            values.discard(None)
        return values.pop() if len(values) == 1 else None

    def stepped(self, kind, offset):
        """What may stand at an offset in objects of a type that lie one behind another."""
        size = c_types.size_of(kind)
        return {self.of_type(way) for way in (c_types.found_at(kind, offset % size, self.complete) if size else [])}

    def element(self, kind, offset):
        """What may stand at an offset and a number of elements of one of the arrays in a type: compilers put part of the offset into
        that number, so each array of the type may be meant. What is no pointer is left out, since it is called or followed."""
        found = set()
        for inner, at in c_types.arrays_in(kind, self.complete):
            found |= self.stepped(c_types.type_of(inner), offset - at)
        return found - {None}


class View(NamedTuple):
    """A way to see an address: within an object of a type, how far, and whether that is all, or a number of elements may be added."""
    kind: object
    offset: int
    is_all: bool


class Kind:
    """A type, equal to others by what they have in common."""

    def __init__(self, die):
        self.die, self.key = die, c_types.key(die)

    def __eq__(self, other):
        return isinstance(other, Kind) and self.key == other.key

    def __hash__(self):
        return hash(self.key)


class Tables:
    """What stands in data that no instruction of the program may write, as pointers to code; and where code takes addresses of data."""

    def __init__(self, read):
        self.read, self.rows, self.words, self.sizes = read, {}, {}, {}
        for row in read.relocations:
            target = read.target(row) if self.is_const(row.section) else None
            if target and read.is_code(target[0]) and row.kind == ABS64:
                self.rows.setdefault(row.section, []).append((row.offset, target))
            elif target and read.is_code(target[0]) and row.kind in (ABS32, ADD32):
                self.words[row.section, row.offset] = target
        self.starts = {read.target(row) for row in read.relocations if row.kind in (HI20, PCREL_HI20)}
        for symbol in read.symbols:
            if symbol.size and isinstance(symbol.section, int) and not symbol.name.startswith(OWN):
                self.sizes[symbol.section, symbol.value] = symbol.size

    def is_const(self, section):
        """Whether a section is of data that the program does not write, also where a linker would."""
        is_written = self.read.headers[section]["sh_flags"] & WRITE and not self.read.names[section].startswith(RELOCATED)
        return not is_written and not self.read.is_code(section)

    def labels(self, address):
        """The labels of the table of words that begins at an address, up to where the next one begins, or None."""
        if not address or address[0] != "data":
            return None
        at, found = (address[1], address[2] + address[3]), set()
        while at in self.words and (not found or at not in self.starts):
            found.add(self.words[at])
            at = at[0], at[1] + 4
        return frozenset(found) or None

    def codes(self, section, start, kind, offset, is_all, complete):
        """The places of code that a load from a variable may give; with elements added those of all."""
        size = c_types.size_of(kind) or self.sizes.get((section, start), 0)
        arrays = list(c_types.arrays_in(kind, complete))
        stride = c_types.stride_of(kind) if len(arrays) == 1 and arrays[0][0] is kind else 0
        is_meant = lambda at: at == offset if is_all else not stride or (at - offset) % stride == 0
        found = {target for at, target in self.rows.get(section, []) if start <= at < start + size and is_meant(at - start)}
        return ("codes", frozenset(found)) if found else None


def signed(value, bits=12):
    value &= (1 << bits) - 1
    return value - (value >> bits - 1 << bits)


def immediate(word):
    return signed(word >> 20)


def added(value, number):
    """What is known of a value and a number more."""
    if value is None or number == 0:
        return value
    if value[0] == "int":
        return "int", value[1] + number
    if value[0] == "frame":
        return "frame", value[1] + number, value[2]
    if value[0] == "ptr":
        return "ptr", frozenset(view._replace(offset=view.offset + number) for view in value[1])
    if value[0] in ("data", "near"):
        return (*value[:-2], value[-2] + number, value[-1])
    return value if value[0] == "short" else None


def summed(one, other):
    """What is known of a sum: an address and a number that is not known go through elements."""
    for first, second in ((one, other), (other, one)):
        if first is not None and first[0] == "short":
            return first
        if second is not None and second[0] == "int":
            return added(first, second[1])
        if second is None and first is not None and first[0] == "ptr":
            return "ptr", frozenset(view._replace(is_all=False) for view in first[1])
        if second is None and first is not None and first[0] in ("data", "near", "frame"):
            return (*first[:-1], False)
    return None


def joined(one, other, types):
    """What is known of a value that is the one or the other."""
    if one == other:
        return one
    if one is None or other is None:
        return None
    if ("int", 0) in (one, other):  # no function is there, so nothing goes to it
        return other if one == ("int", 0) else one
    if one[0] == other[0] and one[0] in ("codes", "short"):
        return one[0], one[1] | other[1] if one[1] and other[1] else None
    for first, second in ((one, other), (other, one)):
        if first[0] == "fun" and second[0] == "codes":
            told = {types.functions[place].signature if place in types.functions else None for place in second[1]}
            return first if told == {first[1]} else None
    return elements(one, other, types) if one[0] == other[0] else None


def elements(one, other, types):
    """An address that is one of two: of several elements of an array, and what both can be seen as."""
    if one[0] == "ptr":
        views = {each for first in one[1] for second in other[1] for each in both(first, second)}
        return ("ptr", frozenset(views)) if views else None
    if one[0] != "data" or one[1:3] != other[1:3] or one[1:3] not in types.variables:
        return None
    stride = c_types.stride_of(types.variables[one[1:3]])
    return (*one[:-1], False) if stride and (one[3] - other[3]) % stride == 0 else None


def both(one, other):
    """How two addresses can be seen that are seen in one way each."""
    if one == other:
        yield one
    elif one.kind == other.kind:
        stride = c_types.stride_of(one.kind.die)
        if stride and (one.offset - other.offset) % stride == 0:
            yield View(one.kind, one.offset % stride, False)
