"""Objects by their texts, and what several of them are as one program, for make_links.py.

An object is `SECTIONS;SYMBOLS;RELOCATIONS;CHANGES`, of which the last may be left out. The elements of each have one space between
them:

    SORT,ALIGNMENT,WORDS                            a section, from 1 on: words in hexadecimal with points between them, or of
                                                    `zeros` a size
    NAME,BINDING,TYPE,SECTION,VALUE,SIZE            a symbol, from 1 on; `-` is no name
    SECTION,OFFSET,TYPE,SYMBOL,ADDEND               a relocation; the symbol is the first of a name, or #NUMBER
    OFFSET,DIGITS                                   bytes of the file that are put in place of those there

The file is as an object is written in the crates of tests: the sections, a table of relocations for each that has some, the symbol
table, its names, the sections' names; contents from 64 on, each at a multiple of 8, then the headers.
"""

import struct

from tests.model.hardener import DATA, Hardening, Source
from tests.model.joiner import Joined
from tests.shared.elf import NOBITS, NOTE, PROGBITS, RELA, STRTAB, SYMTAB, Section, object_file
from tests.shared.texts import policy_text

WRITE, ALLOC, EXECINSTR = 1, 2, 4
SORTS = {"code": (".text", PROGBITS, ALLOC | EXECINSTR), "data": (".data", PROGBITS, ALLOC | WRITE),
         "zeros": (".bss", NOBITS, ALLOC | WRITE), "text": (".comment", PROGBITS, 0), "note": (".note", NOTE, ALLOC),
         "frames": (".eh_frame", PROGBITS, ALLOC)}
BINDINGS = {"LOCAL": 0, "GLOBAL": 1, "WEAK": 2}
TYPES = {"NOTYPE": 0, "OBJECT": 1, "FUNC": 2, "SECTION": 3, "FILE": 4}
PLACES = {"ABS": 0xFFF1, "COMMON": 0xFFF2}
KINDS = {"NONE": 0, "32": 1, "64": 2, "BRANCH": 16, "JAL": 17, "CALL": 18, "CALL_PLT": 19, "GOT_HI20": 20, "PCREL_HI20": 23,
         "PCREL_LO12_I": 24, "PCREL_LO12_S": 25, "HI20": 26, "LO12_I": 27, "LO12_S": 28, "ADD32": 35, "SUB32": 39, "RELAX": 51}


def number(names, word):
    return names[word] if word in names else int(word)


class Text:
    """An object by its text."""

    def __init__(self, text):
        parts = text.split(";") + [""]
        self.sections = [self.section(*element.split(",")) for element in parts[0].split(" ") if element]
        self.symbols = [element.split(",") for element in parts[1].split(" ") if element]
        self.relocations = [element.split(",") for element in parts[2].split(" ") if element]
        self.changes = [element.split(",") for element in parts[3].split(" ") if element]

    @staticmethod
    def section(sort, align, words):
        name, kind, flags = SORTS[sort]
        content = b"" if kind == NOBITS else b"".join(struct.pack("<I", int(word, 16)) for word in words.split("."))
        return name, Section(kind, content, flags, align=int(align), size=int(words) if kind == NOBITS else None)

    def symbol_number(self, word):
        if word[0] == "#":
            return int(word[1:])
        return 1 + [symbol[0] for symbol in self.symbols].index(word)

    def symbol_tables(self):
        entries, names = bytes(24), b"\0"
        for name, binding, kind, place, value, size in self.symbols:
            info = number(BINDINGS, binding) << 4 | number(TYPES, kind)
            entries += struct.pack("<IBBHQQ", len(names), info, 0, number(PLACES, place), int(value), int(size))
            names += (b"" if name == "-" else name.encode()) + b"\0"
        return entries, names

    def table(self, index):
        return b"".join(struct.pack("<QQq", int(at), self.symbol_number(symbol) << 32 | KINDS[kind], int(addend))
                        for section, at, kind, symbol, addend in self.relocations if int(section) == index)

    def file(self):
        """The bytes of the object's file."""
        tables = [(k, self.table(k)) for k in range(1, 1 + len(self.sections)) if self.table(k)]
        symtab = 1 + len(self.sections) + len(tables)
        entries, names = self.symbol_tables()
        local = 1 + sum(number(BINDINGS, symbol[1]) == 0 for symbol in self.symbols)
        parts = [(".rela", Section(RELA, rows, link=symtab, info=k, align=8, entry=24)) for k, rows in tables]
        parts += [(".symtab", Section(SYMTAB, entries, link=symtab + 1, info=local, align=8, entry=24)), (".strtab", Section(STRTAB, names))]
        parts = self.sections + parts + [(".shstrtab", None)]
        table, at = b"\0" + b"".join(name.encode() + b"\0" for name, _ in parts), 1
        parts[-1] = ".shstrtab", Section(STRTAB, table)
        for name, section in parts:
            section.name, at = at, at + len(name) + 1
        return self.changed(bytearray(object_file([section for _, section in parts])))

    def changed(self, file):
        for at, digits in self.changes:
            content = bytes.fromhex(digits)
            assert int(at) + len(content) <= len(file)
            file[int(at):int(at) + len(content)] = content
        return bytes(file)


def has_sections(file):
    return file[60:62] != b"\0\0"


def joined(files):
    """What several files are as one, or the text of what stands against it. A file without sections moves nothing, but counts."""
    sources = [Source(file) for file in files if has_sections(file)]
    whole = Joined(sources)
    name, missing = whole.duplicate(), whole.undefined([len(source.symbols) for source in sources])
    if name:
        return "Duplicate " + name
    if missing:
        counted = [k for k, file in enumerate(files, 1) if has_sections(file)]
        return "Undefined %d in %d" % (missing[0], counted[missing[1] - 1])
    return whole


def data_end(hardening):
    """Where all data end."""
    source = hardening.source
    sizes = {k: source.symbols[k[1]].size if isinstance(k, tuple) else source.sections[k].size for k in hardening.places}
    return max([DATA] + [at + sizes[k] for k, at in hardening.places.items()])


def numbers(data):
    return "".join(" %x" % int.from_bytes(data[k:k + 8], "little") for k in range(0, len(data), 8))


def told_of(hardening):
    """What is told of a hardened program: where it is entered, its classes, of each instruction with a relocation's immediate or a
    target the last word of its unit, of a store the first, initialised data, and where all data end."""
    source, gates = hardening.source, hardening.layout.gates
    lines = hardening.graph.decode().split("\n")
    told = ["enter " + line.split(" ")[2] for line in lines if line.startswith("call 4000000c ")]
    told += [line for line in lines if line.startswith("class ")]
    words = [hardening.built.words[(gates[k + 1] - 0x40000000) // 4 - (4 if item.kind == "store" else 1)]
             for k, item in enumerate(source.items) if item.target or item.place in source.at]
    told += ["words" + "".join(" %08x" % word for word in words)] if words else []
    told += ["data %d%s" % (hardening.data, numbers(hardening.built.data))] if hardening.data else []
    return ", ".join(told + ["end %x" % data_end(hardening)])


def is_entered(whole, name):
    """Whether a name finds an instruction."""
    try:
        symbol = whole.named(name)
        return whole.items[whole.index[symbol.section, symbol.value]].kind != "stop"
    except (StopIteration, KeyError):
        return False


def told(files, asked):
    """What is told of several files as one program that is hardened for one hart: it is entered at the first word that is asked,
    and the others are the lines of a policy."""
    entry, _, lines = asked.partition(" ")
    whole = joined(files)
    if isinstance(whole, str):
        return whole
    if not entry or not is_entered(whole, entry):
        return "NoEntry"
    return told_of(Hardening(whole, entry, "plain", policy_text(lines=lines.split(";")) if lines else ""))


def files_of(texts):
    return [Text(text).file() for text in texts.split("/")]
