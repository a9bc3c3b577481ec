"""Relocatable objects, section by section, by the System V gABI."""

import struct

PROGBITS, SYMTAB, STRTAB, RELA, NOTE, NOBITS = 1, 2, 3, 4, 7, 8
DATA_FLAGS, CODE_FLAGS = 3, 6
COMMON = 0xFFF2
HEADER, ENTRY, RELOCATION = 64, 24, 24
FUNC, OBJECT = 0x12, 0x11  # global symbols


def symbol(name, info, section, value, size=0):
    return struct.pack("<IBBHQQ", name, info, 0, section, value, size)


def relocation(offset, symbol_number, kind, addend=0):
    return struct.pack("<QIIq", offset, kind, symbol_number, addend)


def words(*code):
    return struct.pack("<%dI" % len(code), *code)


class Section:
    """A section; its offset and size in the file may be those of others, or its size one of its own."""

    def __init__(self, kind, content, flags=0, link=0, info=0, align=1, entry=0, shared=None, name=0, size=None):
        self.kind, self.content, self.flags, self.link, self.info = kind, content, flags, link, info
        self.align, self.entry, self.shared, self.name = align, entry, shared, name
        self.size = len(content) if size is None else size


def object_file(sections):
    """A file of these sections from number 1 on; the last one has their names."""
    body, headers = bytearray(64), bytearray(HEADER)
    where = {}
    for number, section in enumerate(sections, 1):
        body += bytes(-len(body) % 8)
        where[number] = (len(body), section.size)
        body += section.content
    for number, section in enumerate(sections, 1):
        at, size = where[section.shared or number]
        headers += struct.pack("<IIQQQQIIQQ", section.name, section.kind, section.flags, 0, at, size, section.link,
                               section.info, section.align, section.entry)
    body += bytes(-len(body) % 8)
    body[:64] = b"\x7fELF\2\1\1" + bytes(9) + struct.pack(
        "<HHIQQQIHHHHHH", 1, 243, 1, 0, 0, len(body), 0, 64, 0, 0, HEADER, 1 + len(sections), len(sections))
    return bytes(body + headers)


def with_tables(parts, tables, symbols, names=b"\0", shared=None):
    """These sections, then the relocations of some by their number, the symbols, and names. Where `shared` is a
    section's number, empty tables are that section's bytes."""
    symtab = 1 + len(parts) + len(tables)
    rows = [Section(RELA, content, link=symtab, info=number, align=8, entry=RELOCATION,
                    shared=None if content else shared) for number, content in tables]
    table = Section(SYMTAB, bytes(ENTRY) + symbols, link=symtab + 1, info=1, align=8, entry=ENTRY)
    return object_file(parts + rows + [table, Section(STRTAB, names)])
