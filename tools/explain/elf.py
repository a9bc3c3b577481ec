"""An object's sections, symbols, relocations and instructions, read by pyelftools."""

import bisect
import struct
from functools import cached_property
from typing import NamedTuple

from elftools.elf.elffile import ELFFile
from elftools.elf.relocation import RelocationSection
from elftools.elf.sections import SymbolTableSection

from .disassembly import Disassembly
from .dwarf import Lines

ALLOC, EXECINSTR = 2, 4
ABS32, ABS64, ADD32, ADD64 = 1, 2, 35, 36
CALL, CALL_PLT, GOT_HI20, PCREL_HI20, HI20 = 18, 19, 20, 23, 26
AUIPC, JALR, ECALL, EBREAK = 0x17, 0x67, 0x00000073, 0x00100073
OWN = ".L"  # what names of a compiler and an assembler begin with, which no source has


class Symbol(NamedTuple):
    """A row of the symbol table; `section` is a number, or a word as SHN_UNDEF. Of several objects `file` is its own."""
    index: int
    name: str
    kind: str
    bind: str
    section: object
    value: int
    size: int
    file: str = ""

    def told(self):
        of, of_all = (" of " + self.file, " of all") if self.file else ("", "")
        where = "at %s in section %s%s" % (hexadecimal(self.value), self.section, of_all if isinstance(self.section, int) else "")
        where = "is defined nowhere" if self.section == "SHN_UNDEF" else where
        return "%s (symbol %d%s, %s, %s)" % (self.name or "a symbol without a name", self.index, of, word(self.bind), where)


class Relocation(NamedTuple):
    section: int
    offset: int
    kind: int
    symbol: int
    addend: int


def hexadecimal(number):
    return "%x" % number


def word(constant):
    """`STB_LOCAL` as `local`."""
    return str(constant).split("_")[-1].lower()


def fields(instruction):
    """The opcode, rd and rs1 of a word."""
    return instruction & 127, instruction >> 7 & 31, instruction >> 15 & 31


class Object:
    """What is read of an object. A place is a pair of a section's number and an offset."""
    own_run = "The object's own run"

    def __init__(self, path):
        self.path = path
        with open(path, "rb") as file:
            elf = ELFFile(file)
            sections = list(elf.iter_sections())
            self.flags = elf["e_flags"]
            self.headers = [dict(section.header) for section in sections]
            self.names = [section.name for section in sections]
            self.content = [b"" if self.is_zeroed(k) else section.data() for k, section in enumerate(sections)]
            self.symbols = self.read_symbols(sections)
            self.relocations = self.read_relocations(sections)
        self.functions = self.sorted_functions()
        self.at = self.symbols_by_place()

    def is_zeroed(self, number):
        return self.headers[number]["sh_type"] == "SHT_NOBITS"

    def is_kept(self, number):
        header = self.headers[number]
        return bool(header["sh_flags"] & ALLOC) and header["sh_type"] != "SHT_NOTE" and self.names[number] != ".eh_frame"

    def is_code(self, number):
        return self.is_kept(number) and bool(self.headers[number]["sh_flags"] & EXECINSTR)

    def code_sections(self):
        return [number for number in range(len(self.names)) if self.is_code(number)]

    def read_symbols(self, sections):
        tables = [section for section in sections if isinstance(section, SymbolTableSection)]
        rows = tables[0].iter_symbols() if tables else []
        return [Symbol(index, self.symbol_name(tables[0], row), str(row["st_info"]["type"]), str(row["st_info"]["bind"]),
                       row["st_shndx"], row["st_value"], row["st_size"]) for index, row in enumerate(rows)]

    @staticmethod
    def symbol_name(_, row):
        return row.name

    def read_relocations(self, sections):
        """Those of kept sections, in the order of their tables."""
        found = []
        for section in sections:
            if isinstance(section, RelocationSection) and self.is_kept(section["sh_info"]):
                found += [Relocation(section["sh_info"], row["r_offset"], row["r_info_type"], row["r_info_sym"], row["r_addend"])
                          for row in section.iter_relocations()]
        return found

    def sorted_functions(self):
        """For each code section its functions' starts, in order, and the symbols."""
        found = {number: [] for number in self.code_sections()}
        for symbol in self.symbols:
            if symbol.kind == "STT_FUNC" and symbol.section in found:
                found[symbol.section].append(symbol)
        return {number: sorted(rows, key=lambda row: row.value) for number, rows in found.items()}

    def symbols_by_place(self):
        found = {}
        for symbol in self.symbols:
            if symbol.name and isinstance(symbol.section, int) and not symbol.name.startswith(("$", OWN)):
                found.setdefault((symbol.section, symbol.value), []).append(symbol)
        return found

    def function(self, place):
        """The function that a place is in: the last that starts at or before it and does not end before it."""
        section, offset = place
        rows = self.functions.get(section, [])
        last = bisect.bisect_right([row.value for row in rows], offset) - 1
        while last >= 0:
            if offset < rows[last].value + max(rows[last].size, 1):
                return rows[last]
            last -= 1
        return None

    def label(self, place):
        """The name of a symbol that stands at a place, a function's before others."""
        rows = sorted(self.at.get(place, []), key=lambda row: row.kind != "STT_FUNC")
        return rows[0].name if rows else None

    def names_of_code(self):
        """The name of each section that a disassembler prints, at its number."""
        return [name if header["sh_flags"] & EXECINSTR and header["sh_size"] else None
                for name, header in zip(self.names, self.headers)]

    def section_name(self, number):
        known = isinstance(number, int) and number < len(self.names)
        return "%s (section %s)" % (self.names[number] or "a section without a name", number) if known else "section %s" % number

    def owner(self, place):
        """The name of the function that a place is in, else of the last symbol before it, else of its section."""
        function = self.function(place)
        if function:
            return function.name, function.value
        before = [offset for section, offset in self.at if section == place[0] and offset <= place[1]]
        if before:
            return self.label((place[0], max(before))), max(before)
        return self.names[place[0]] if place[0] < len(self.names) else "section %d" % place[0], 0

    def name(self, place):
        """A place as a policy names it: a function, `+` and a hexadecimal offset; and the label at it, where it has one."""
        owner, start = self.owner(place)
        label = self.label(place)
        inside = " (%s)" % label if label and label != owner else ""
        return "%s+%s%s" % (owner, hexadecimal(place[1] - start), inside)

    def word_at(self, place):
        section, offset = place
        content = self.content[section] if section < len(self.content) else b""
        return struct.unpack_from("<I", content, offset)[0] if 0 <= offset <= len(content) - 4 else None

    def target(self, relocation):
        """The place that a relocation's symbol and addend name, or None where it is in no section."""
        if relocation.symbol >= len(self.symbols):
            return None
        symbol = self.symbols[relocation.symbol]
        return (symbol.section, symbol.value + relocation.addend) if isinstance(symbol.section, int) else None

    @cached_property
    def rows_by_place(self):
        found = {}
        for row in self.relocations:
            found.setdefault((row.section, row.offset), []).append(row)
        return found

    def at_place(self, place):
        return self.rows_by_place.get(place, [])

    def named_by(self, row):
        """What a relocation names: a symbol and what is added, or the place of a label that no source has."""
        if row.symbol >= len(self.symbols):
            return "symbol %d, which is not in the table" % row.symbol
        symbol = self.symbols[row.symbol]
        if symbol.name.startswith(OWN) and isinstance(symbol.section, int):
            return self.name(self.target(row))
        name = symbol.name or (self.section_name(symbol.section) if isinstance(symbol.section, int) else "no symbol")
        return "%s%+d" % (name, row.addend) if row.addend else name

    @cached_property
    def lines(self):
        return Lines(self.path)

    def line(self, place):
        """The file and the line of an instruction, where debugging information has them, else nothing."""
        return self.lines.at(place)

    def at_line(self, place):
        """The same behind a place's name."""
        line = self.line(place)
        return " at %s" % line if line else ""

    def pairs(self):
        """The places of AUIPCs that are one transfer with the JALR behind them."""
        return {(row.section, row.offset) for row in self.relocations if row.kind in (CALL, CALL_PLT) and self.is_code(row.section)}

    def instructions(self):
        """Each place of an instruction and its word; a pair is told as its AUIPC alone."""
        pairs = self.pairs()
        for section in self.code_sections():
            for offset in range(0, len(self.content[section]) - 3, 4):
                if (section, offset - 4) not in pairs:
                    yield (section, offset), self.word_at((section, offset))

    def named(self, name):
        """The symbols of a name, in the table's order: an entry or a policy means the first."""
        return [symbol for symbol in self.symbols if symbol.name == name]

    @staticmethod
    def stands_for(first, others):
        """Which one of the symbols of a name is meant."""
        if first.bind == "STB_LOCAL" and any(other.bind != "STB_LOCAL" for other in others):
            return "a static symbol, while a global one of that name is there"
        return "the first of %d symbols" % (1 + len(others))

    def symbol_of(self, number, _):
        """The symbol with a number in an object, these counted from 1, or None."""
        return self.symbols[number] if number < len(self.symbols) else None

    def own_names(self):
        """What relocations against labels that no source has name, by the place and the label."""
        symbols, found = self.symbols, {}
        for row in self.relocations:
            if row.symbol < len(symbols) and symbols[row.symbol].name.startswith(OWN):
                found[(row.section, row.offset), symbols[row.symbol].name.strip()] = self.named_by(row)
        return found

    def disassembly(self):
        return Disassembly(self.path, self.names_of_code(), self.own_names())

    @staticmethod
    def doubt(how):
        """What is told of a graph that has other classes than the object."""
        yield "These are not the classes that the object comes to %s." % how
        yield "    Was it hardened with another policy, or is this another object?"
