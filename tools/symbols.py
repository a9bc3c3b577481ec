#!/usr/bin/env python3
"""Writes an image as a file with symbols, for gdb, objdump and the like: functions at their gates, data at their addresses.

    python3 tools/symbols.py program.img program.map FILE.o .. program.elf
    python3 tools/symbols.py program.img program.map FILE.o .. program.elf --address counter

The objects stand in the order in which they were linked. `--address NAME` prints where a variable stands, as a script of changes has
it, and how long it is; of several of the name each. The file is for reading: `rvcfi` takes the image alone. gdb, at a run of it under qemu:

    qemu-riscv64 -g 1234 program.qemu &
    gdb-multiarch program.elf -ex 'target remote :1234' -ex 'break main'

It needs Python 3.9 and pyelftools. Nothing of it is trusted: a map of another image, or other objects, give wrong names, of which it
tells what it sees.
"""

import argparse
import struct
import sys

sys.dont_write_bytecode = True

from explain.files import ended, image_of, map_of, objects_of
from explain.placed import Data, asked, variables
from explain.texts import CODE, HANDLERS, OPENING

PAGE, HEADER, SECTION_HEADER = 0x1000, 64, 64
NOTYPE, OBJECT, FUNC = 0, 1, 2
PROGBITS, SYMTAB, STRTAB, NOBITS = 1, 2, 3, 8
WRITE, ALLOC, EXECINSTR = 1, 2, 4
TEXT, INITIALIZED, ZEROED = 1, 2, 3  # the numbers of sections
KINDS = {"STT_FUNC": FUNC, "STT_OBJECT": OBJECT}
BINDS = {"STB_GLOBAL": 1, "STB_WEAK": 2}
DATA, DATA_END, SHADOW = 0x10000, 0x10001000, 0x60000000


class Strings:
    """A table of names."""

    def __init__(self):
        self.content = b"\0"

    def add(self, name):
        at = len(self.content)
        self.content += name.encode("utf-8", "surrogateescape") + b"\0"
        return at


def code_symbols(read, placed):
    """Functions and labels of code as rows of name, kind, binding, section, address and size."""
    gates = dict(zip(placed.places, placed.gates))
    for symbol in read.symbols:
        place = symbol.section, symbol.value
        if place in gates and symbol.name and not symbol.name.startswith((".L", "$")) and symbol.kind in ("STT_FUNC", "STT_NOTYPE"):
            end = gates.get((symbol.section, symbol.value + symbol.size), gates[place])
            yield symbol.name, KINDS.get(symbol.kind, NOTYPE), BINDS.get(symbol.bind, 0), TEXT, gates[place], end - gates[place]


def data_symbols(read, data):
    for symbol, address in variables(read, data):
        section = INITIALIZED if address < data.end else ZEROED
        if not symbol.name.startswith((".L", "$")):
            yield symbol.name, KINDS.get(symbol.kind, NOTYPE), BINDS.get(symbol.bind, 0), section, address, symbol.size


def own_symbols(placed):
    """What an image has of itself before its units."""
    for address, name in HANDLERS.items():
        yield name, FUNC, 0, TEXT, address, 4
    yield "__cfi_opening", FUNC, 0, TEXT, OPENING, 4 * placed.prologue.opening
    yield "__cfi_closing", FUNC, 0, TEXT, placed.prologue.closing, 8


def table_of(rows, names):
    """A symbol table, whose local symbols come first, and how many these are with the empty one."""
    rows = sorted(rows, key=lambda row: row[2] != 0)
    content = bytes(24)
    for name, kind, bind, section, address, size in rows:
        content += struct.pack("<IBBHQQ", names.add(name), bind << 4 | kind, 0, section, address, size)
    return content, 1 + sum(row[2] == 0 for row in rows)


def file_of(image, rows, data_end):
    """The image with sections: its own parts, which are where they were, and behind them the symbols."""
    length, start, initialized = (struct.unpack_from("<Q", image, at)[0] for at in (152, 72, 96))
    names, sections = Strings(), Strings()
    symbols, first_global = table_of(rows, names)
    body = bytearray(image) + bytes(-len(image) % 8)
    at_symbols = len(body)
    at_names = at_symbols + len(symbols)
    headers = [
        (".text", PROGBITS, ALLOC | EXECINSTR, CODE, PAGE, length, 0, 0, 4, 0),
        (".data", PROGBITS, ALLOC | WRITE, DATA, start, initialized, 0, 0, 8, 0),
        (".bss", NOBITS, ALLOC | WRITE, DATA + initialized, start + initialized, data_end - DATA - initialized, 0, 0, 1, 0),
        (".symtab", SYMTAB, 0, 0, at_symbols, len(symbols), 5, first_global, 8, 24),
        (".strtab", STRTAB, 0, 0, at_names, len(names.content), 0, 0, 1, 0),
    ]
    named = [(sections.add(row[0]), *row[1:]) for row in headers]
    at_sections = at_names + len(names.content)
    last = sections.add(".shstrtab"), STRTAB, 0, 0, at_sections, len(sections.content), 0, 0, 1, 0
    body += symbols + names.content + sections.content
    body += bytes(-len(body) % 8)
    struct.pack_into("<Q", body, 40, len(body))
    struct.pack_into("<HHH", body, 58, SECTION_HEADER, len(named) + 2, len(named) + 1)
    return bytes(body) + bytes(SECTION_HEADER) + b"".join(struct.pack("<IIQQQQIIQQ", *row) for row in [*named, last])


def words_of_command():
    words = argparse.ArgumentParser(description=__doc__, formatter_class=argparse.RawDescriptionHelpFormatter)
    words.add_argument("image", metavar="IMAGE")
    words.add_argument("map", metavar="MAP")
    words.add_argument("objects", metavar="OBJECT", nargs="+")
    words.add_argument("out", metavar="OUT")
    words.add_argument("--address", metavar="NAME", action="append", default=[], help="prints where a variable stands")
    return words.parse_args()


def main():
    options = words_of_command()
    read, image = objects_of(options.objects), image_of(options.image)
    placed, data = map_of(options.map, read, image), Data(read)
    found = list(code_symbols(read, placed)), list(data_symbols(read, data))
    told = [line for name in options.address for line in asked(read, data, name)]
    with open(options.out, "wb") as file:
        file.write(file_of(image, [*own_symbols(placed), *found[0], *found[1]], max(data.at, data.end)))
    return told or ["%s: %d symbols of code, %d of data" % (options.out, len(found[0]), len(found[1]))]


if __name__ == "__main__":
    sys.exit(ended(main))
