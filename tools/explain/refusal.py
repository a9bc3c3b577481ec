"""A refusal of `rewrite`, `link` or a comparison in names: what is meant, where it stands, and what to do."""

import re

from . import table
from .classes import Flow, place_of
from .elf import fields
from .texts import place_words, policy_lines

TYPES = {1: "an object", 2: "a linked program", 3: "a shared or position independent program", 4: "a core dump"}
MACHINES = {3: "x86", 40: "ARM", 62: "x86-64", 183: "AArch64", 243: "RISC-V"}
FLAGS = [(0x1, "compressed instructions"), (0x2, "registers for single floating point"), (0x4, "registers for double floating point"),
         (0x8, "the ABI of 16 registers (RVE)"), (0x10, "total store order")]
RELOCATIONS = {16: "BRANCH", 17: "JAL", 18: "CALL", 19: "CALL_PLT", 20: "GOT_HI20", 21: "TLS_GOT_HI20", 22: "TLS_GD_HI20",
               23: "PCREL_HI20", 24: "PCREL_LO12_I", 25: "PCREL_LO12_S", 26: "HI20", 27: "LO12_I", 28: "LO12_S", 29: "TPREL_HI20",
               30: "TPREL_LO12_I", 31: "TPREL_LO12_S", 32: "TPREL_ADD", 43: "ALIGN", 51: "RELAX", 1: "32", 2: "64", 57: "32_PCREL"}
RESERVED = {3: "x3 (gp)", 4: "x4 (tp)", 30: "x30 (t5)", 31: "x31 (t6)"}
AT_PLACES = {9, 10, 11, 12, 13, 14, 16, 21}
PCREL_LO12 = {24, 25}
LARGEST = 8
LISTED = ["rvcfi-policy", "2"]  # the first line of a policy with a list of system calls
OF_ONE, DUPLICATE, SECTIONS = range(1, 9), 27, 28  # the refusals of one object alone, and those of several


def words_of(answer):
    """The words of an answer. A name that is defined twice is one, whatever bytes it has."""
    text = answer.decode("utf-8", "surrogateescape")
    named = re.fullmatch(r"(refused) (%d) (Duplicate) (.*?)\n?" % DUPLICATE, text, re.S)
    return list(named.groups()) if named else text.split()


def number_of(words):
    """The number of the object, from 1, that a refusal of `link` is of, or None."""
    return decimal(words[-1]) if words[-2:-1] == ["in"] else None


def decimal(word):
    """The number that a word is, or 0."""
    return int(word) if re.fullmatch("[0-9]{1,1000}", word) else 0


class Refusal:
    """A refusal's number, its name and the numbers behind them, with the files that it is of."""

    def __init__(self, words, read, disassembly, options):
        self.number, self.of, self.words, self.values = decimal(words[1]), number_of(words), words[2:], words[3:]
        self.read, self.disassembly, self.policy, self.objects = read, disassembly, options.policy, options.objects

    def heading(self):
        return "refused %d %s" % (self.number, " ".join(self.words))

    def value(self, index):
        return decimal(self.values[index]) if index < len(self.values) else 0

    def lines(self):
        """All that is told, where the object could be read."""
        yield self.heading()
        if self.of is not None:
            yield from self.of_object()
        if self.number in AT_PLACES:
            yield from self.at_place()
        if self.number in SPECIAL:
            yield from SPECIAL[self.number](self)
        yield from self.told()

    def told(self):
        """What a refusal means and what to do, of whatever object."""
        meaning, advice = table.rows().get(self.number, ("not in the table of docs/COMPILING.md", ""))
        yield "It means: " + meaning
        yield "What to do: " + advice
        yield "The first refusal that stands is told: there may be more behind it."

    def of_object(self):
        if 0 < self.of <= len(self.objects):
            yield "Object %d is %s." % (self.of, self.objects[self.of - 1])
        else:
            yield "There is no object %d here: give all of them, in their order." % self.of

    def at_place(self):
        place = self.value(0), self.value(1)
        yield "In %s at offset %x: %s%s" % (self.read.section_name(place[0]), place[1], self.read.name(place), self.read.at_line(place))
        if place[0] < len(self.read.headers) and self.read.is_code(place[0]):
            yield "The instruction: " + self.disassembly.text(place, self.read.word_at(place))
        for row in self.read.at_place(place):
            yield "A relocation there: %s against %s" % (RELOCATIONS.get(row.kind, row.kind), self.read.named_by(row))

    def file_type(self):
        yield "The file is %s." % TYPES.get(self.value(0), "of type %d" % self.value(0))

    def processor(self):
        yield "The file is for %s." % MACHINES.get(self.value(0), "the processor %d" % self.value(0))

    def flags(self):
        yield "It is built for " + ", ".join(text for bit, text in FLAGS if self.value(0) & bit) + "."

    def broken_table(self):
        yield "The table is " + self.read.section_name(self.value(0)) + "."

    def section(self):
        number = self.value(0)
        if number < len(self.read.headers):
            header = self.read.headers[number]
            kind = str(header["sh_type"]).replace("SHT_", "")
            yield "The section: %s, of type %s, flags %x, %d bytes, aligned at %d." % (
                self.read.section_name(number), kind, header["sh_flags"], header["sh_size"], header["sh_addralign"])
            if kind == "GROUP" and header["sh_info"] < len(self.read.symbols):
                yield "The group is that of %s." % self.read.symbols[header["sh_info"]].name

    def symbol(self):
        if self.value(0) >= len(self.read.symbols):
            return
        symbol = self.read.symbols[self.value(0)]
        yield "The symbol: %s, of kind %s." % (symbol.told(), symbol.kind.replace("STT_", ""))
        if isinstance(symbol.section, int) and symbol.section < len(self.read.headers):
            size = self.read.headers[symbol.section]["sh_size"]
            if symbol.value > size:
                yield "It stands at %x, past the end of %s, which has %x bytes." % (
                    symbol.value, self.read.section_name(symbol.section), size)

    def zero_word(self):
        if self.value(2) == 0:
            yield "It is a zero word: what the assembler fills in behind aligned functions, or data among code."

    def reserved(self):
        word = self.read.word_at((self.value(0), self.value(1)))
        if word is not None:
            named = {fields(word)[1], fields(word)[2], word >> 20 & 31} & set(RESERVED)
            yield "Of the registers that units keep it may name " + ", ".join(RESERVED[number] for number in sorted(named)) + "."

    def pair(self):
        for row in self.read.at_place((self.value(0), self.value(1))):
            place = self.read.target(row) if row.kind in PCREL_LO12 else None
            if place:
                yield "It completes %s: %s" % (self.read.name(place), self.disassembly.text(place, self.read.word_at(place)))

    def undefined_symbols(self):
        symbol = self.read.symbol_of(self.value(0), self.of)
        if symbol:
            yield "The symbol: " + symbol.told() + "."
        uses = self.undefined()
        yield "Undefined are %d in all, with how often each is named, and where first:" % len(uses)
        for name, places in uses.items():
            yield "    %-28s %5d  %s" % (name, len(places), self.read.name(places[0]))

    def undefined(self):
        """By the name of an undefined symbol the places that name it."""
        found = {}
        for row in self.read.relocations:
            symbol = self.read.symbols[row.symbol] if row.symbol < len(self.read.symbols) else None
            if symbol and symbol.index and symbol.section == "SHN_UNDEF":
                found.setdefault(symbol.name, []).append((row.section, row.offset))
        return dict(sorted(found.items()))

    def pointer(self):
        for row in self.read.at_place((self.value(0), self.value(1))):
            target = self.read.target(row)
            if target:
                yield "It points to %s, offset %x of %s." % (self.read.name(target), target[1], self.read.section_name(target[0]))

    def entries(self):
        names = [row.name for rows in self.read.functions.values() for row in rows if row.bind != "STB_LOCAL"]
        yield "Functions that all files see: " + (", ".join(sorted(names)[:40]) or "none") + (", .." if len(names) > 40 else "") + "."

    def policy_line(self):
        rows = dict(policy_lines(self.policy)) if self.policy else {}
        number = self.value(0)
        if number not in rows:
            yield "The policy has no such line, or it is empty." if self.policy else "Give the policy by --policy to see its line."
            return
        yield "Line %d: %s" % (number, " ".join(rows[number]))
        if rows[number][0] == "calls" or number == 2 and rows.get(1) == LISTED:
            yield "Line 2 of a policy of version 2, and no other, is `calls` and 1 to 8 numbers from 0 to 2047, each above the one before."
            return
        for text in rows[number][1:]:
            yield "    %-28s %s" % (text, self.policy_place(text))
        yield from self.sites_beside(rows[number][1:2])

    def sites_beside(self, texts):
        """The computed jumps and calls of the function that a line's site names."""
        name = texts[0].rpartition("+")[0] or texts[0] if texts else ""
        start = place_of(self.read, name + "+0")
        if not start or not self.read.is_code(start[0]):
            return
        owner = self.read.owner(start)
        sites = [place for place in sorted(Flow(self.read).sites) if place[0] == start[0] and self.read.owner(place) == owner]
        yield "Computed jumps and calls of %s: %d" % (name, len(sites))
        for place in sites:
            text = self.disassembly.text(place, self.read.word_at(place))
            yield "    %-28s %s%s" % (self.read.name(place), text, self.read.at_line(place))

    def policy_place(self, text):
        words = place_words(text)
        if not words:
            return "is no place: a name, + and hexadecimal digits without a leading zero"
        found = self.read.named(words[0])
        if not found:
            return "no symbol has this name"
        if not isinstance(found[0].section, int) or not self.read.is_code(found[0].section):
            return "the symbol is not in code"
        place = found[0].section, found[0].value + words[1]
        if place not in dict(self.read.instructions()):
            return "no instruction starts there"
        return "%s: %s" % (self.read.name(place), self.disassembly.text(place, self.read.word_at(place)))

    def largest_functions(self):
        rows = [(row.size, row.name) for rows in self.read.functions.values() for row in rows]
        yield from self.largest(rows, "functions, before they are hardened")

    def duplicates(self):
        rows = list(self.read.duplicates(self.values[0])) if self.values else []
        yield "The name is defined %d times:" % len(rows)
        for number, symbol in rows:
            yield "    in object %d: %s" % (number, symbol.told())

    def sections(self):
        last, counts = self.read.sections_up_to(self.value(0))
        if last:
            yield "With %s there are %d sections." % (last, self.value(0))
        yield from self.largest(counts, "objects", "sections")

    def largest_variables(self):
        rows = [(row.size, row.name) for row in self.read.symbols if row.kind == "STT_OBJECT"]
        yield from self.largest(rows, "variables")

    @staticmethod
    def largest(rows, what, of="bytes"):
        yield "The largest %s:" % what
        for size, name in sorted(rows, reverse=True)[:LARGEST]:
            yield "    %10d %s  %s" % (size, of, name)


# what is told of one kind of refusal alone
SPECIAL = {
    2: Refusal.file_type,
    3: Refusal.processor,
    4: Refusal.flags,
    6: Refusal.broken_table,
    7: Refusal.section,
    8: Refusal.symbol,
    9: Refusal.zero_word,
    10: Refusal.reserved,
    12: Refusal.pair,
    15: Refusal.undefined_symbols,
    16: Refusal.pointer,
    17: Refusal.entries,
    18: Refusal.policy_line,
    19: Refusal.largest_functions,
    20: Refusal.largest_variables,
    DUPLICATE: Refusal.duplicates,
    SECTIONS: Refusal.sections,
}
