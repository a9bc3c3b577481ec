"""Several objects as `rvcfi link` joins them: sections and symbols are numbered on from object to object, number 0 of each counted,
and each use of a shared symbol is one of what defines its name."""

import bisect
from itertools import accumulate

from elftools.common.utils import parse_cstring_from_stream

from .disassembly import Disassembly
from .elf import Object

SHARED = "STB_GLOBAL", "STB_WEAK"
GLOBAL, COMMON, WEAK = 1, 2, 3  # how a symbol defines its name, the strongest first


class Part(Object):
    """One of several objects. Two of its names are the same only where their bytes are."""

    @staticmethod
    def symbol_name(table, row):
        names = table.stringtable
        found = parse_cstring_from_stream(names.stream, names["sh_offset"] + row["st_name"])
        return (found or b"").decode("utf-8", "surrogateescape")


def is_shared(symbol):
    return symbol.index != 0 and symbol.name != "" and symbol.bind in SHARED


class Joined(Object):
    """What is read of several objects. A symbol keeps the number that it has in its own."""
    own_run = "The objects' own run"

    def __init__(self, parts):
        self.parts = parts
        self.sections_before = [0, *accumulate(len(part.names) for part in parts)]
        self.symbols_before = [0, *accumulate(len(part.symbols) for part in parts)]
        self.headers = [header for part in parts for header in part.headers]
        self.names = [name for part in parts for name in part.names]
        self.content = [content for part in parts for content in part.content]
        self.symbols = [self.numbered_on(at, symbol) for at, part in enumerate(parts) for symbol in part.symbols]
        self.definers = self.find_definers()
        self.merge_commons()
        self.relocations = [self.resolved(at, row) for at, part in enumerate(parts) for row in part.relocations]
        self.functions = self.sorted_functions()
        self.at = self.symbols_by_place()

    def numbered_on(self, at, symbol):
        """A symbol of an object with its section's number among all; one that is no section's stands for no place."""
        section, part = symbol.section, self.parts[at]
        if isinstance(section, int):
            section = self.sections_before[at] + section if section < len(part.names) else str(section)
        return symbol._replace(section=section, file=part.path)

    def strength(self, symbol):
        """How a symbol defines its name, or None where it does not."""
        if not is_shared(symbol):
            return None
        if symbol.section == "SHN_COMMON":
            return COMMON
        is_put = symbol.section == "SHN_ABS" or isinstance(symbol.section, int) and self.is_kept(symbol.section)
        return (GLOBAL if symbol.bind == "STB_GLOBAL" else WEAK) if is_put else None

    def find_definers(self):
        """By each shared name the number, among all, of the symbol that defines it: the first of the strongest."""
        found = {}
        for number, symbol in enumerate(self.symbols):
            strength = self.strength(symbol)
            if strength and strength < found.get(symbol.name, (WEAK + 1, 0))[0]:
                found[symbol.name] = strength, number
        return {name: number for name, (_, number) in found.items()}

    def merge_commons(self):
        """The common symbol that defines its name is as large as the largest of them; the others take no place."""
        largest, commons = {}, [number for number, symbol in enumerate(self.symbols) if self.strength(symbol) == COMMON]
        for number in commons:
            name, size = self.symbols[number].name, self.symbols[number].size
            largest[name] = max(largest.get(name, 0), size)
        for number in commons:
            name = self.symbols[number].name
            size = largest[name] if self.definers[name] == number else 0
            self.symbols[number] = self.symbols[number]._replace(size=size)

    def resolved(self, at, row):
        """A relocation of an object at its place among all, against what defines its symbol's name."""
        symbols, number = self.parts[at].symbols, len(self.symbols)
        if row.symbol < len(symbols):
            symbol, number = symbols[row.symbol], self.symbols_before[at] + row.symbol
            number = self.definers.get(symbol.name, number) if is_shared(symbol) else number
        return row._replace(section=self.sections_before[at] + row.section, symbol=number)

    def named(self, name):
        """What defines a name, which an entry or a policy means, and the symbols of that name that are not shared."""
        first = [self.symbols[self.definers[name]]] if name in self.definers else []
        return first + [symbol for symbol in self.symbols if symbol.name == name and symbol.index and not is_shared(symbol)]

    @staticmethod
    def stands_for(first, others):
        if is_shared(first):
            return "the symbol that all files share, while a static one of that name is there"
        return "the first of %d static symbols" % (1 + len(others))

    def symbol_of(self, number, of):
        is_there = of in range(1, len(self.parts) + 1) and number < len(self.parts[of - 1].symbols)
        return self.symbols[self.symbols_before[of - 1] + number] if is_there else None

    def section_name(self, number):
        if not isinstance(number, int) or number >= len(self.names):
            return "section %s" % number
        at = bisect.bisect_right(self.sections_before, number) - 1
        own = number - self.sections_before[at]
        return "%s of %s (section %d of all, its section %d)" % (
            self.names[number] or "a section without a name", self.parts[at].path, number, own)

    def line(self, place):
        at = bisect.bisect_right(self.sections_before, place[0]) - 1
        return self.parts[at].line((place[0] - self.sections_before[at], place[1]))

    def disassembly(self):
        return Disassemblies(self)

    @staticmethod
    def doubt(how):
        yield "These are not the classes that the objects come to %s." % how
        yield "    Were they linked with another policy, or others, or these in another order?"

    def duplicates(self, name):
        """The symbols that define a name so that another one may not, each with its object's number from 1."""
        for at, part in enumerate(self.parts):
            for symbol in self.symbols[self.symbols_before[at]:self.symbols_before[at] + len(part.symbols)]:
                if symbol.name == name and self.strength(symbol) == GLOBAL:
                    yield at + 1, symbol

    def sections_up_to(self, count):
        """The object with which the objects have so many sections, or None, and of each object how many it has."""
        at = self.sections_before.index(count) if count in self.sections_before else 0
        return self.parts[at - 1].path if at else None, [(len(part.names), part.path) for part in self.parts]


class Disassemblies(Disassembly):
    """The texts of several objects, by their places among all."""

    def __init__(self, joined):
        parts = [part.disassembly() for part in joined.parts]
        self.is_there = all(part.is_there for part in parts)
        self.texts = {(first + section, offset): text for first, part in zip(joined.sections_before, parts)
                      for (section, offset), text in part.texts.items()}
