"""An object's debugging information (DWARF), read by pyelftools: relocated first, which pyelftools does not do for RISC-V.

An address of code or data in it is a place: its section's number times 2^32, and its offset.
"""

import bisect
import io
import os
import struct

from elftools.common.exceptions import DWARFError, ELFError
from elftools.construct import Array
from elftools.elf.elffile import ELFFile
from elftools.elf.relocation import RelocationSection

ALLOC, COMPRESSED = 2, 0x800
ADD, SUB, SUB6, SET = 33, 37, 52, {53: 6, 54: 8, 55: 16, 56: 32, 1: 32, 2: 64}
SECTION = 32  # how far left a section's number stands
FAULTS = (ELFError, DWARFError, struct.error, ValueError, KeyError, IndexError, TypeError, AttributeError, OverflowError, RecursionError)


def place_of(address):
    return address >> SECTION, address & (1 << SECTION) - 1


def operation(kind):
    """How a relocation changes what stands there: the bits that it changes, and what becomes of these and the symbol's value."""
    if kind in SET:
        return SET[kind], lambda before, value: value
    if ADD <= kind < SUB:
        return 8 << kind - ADD, lambda before, value: before + value
    if SUB <= kind < SUB + 4:
        return 8 << kind - SUB, lambda before, value: before - value
    return (6, lambda before, value: before - value) if kind == SUB6 else (0, None)


def patch(content, at, kind, value):
    """Does one relocation."""
    bits, changed = operation(kind)
    if bits:
        width = (bits + 7) // 8
        whole, mask = int.from_bytes(content[at:at + width], "little"), (1 << bits) - 1
        content[at:at + width] = (whole & ~mask | changed(whole & mask, value) & mask).to_bytes(width, "little")


def values_of(headers, table):
    """What each symbol of a table stands for in debugging information."""
    for _, _, _, section, value, _ in struct.iter_unpack("<IBBHQQ", table.data()):
        is_placed = section < len(headers) and headers[section]["sh_flags"] & ALLOC
        yield value + (section << SECTION if is_placed else 0)


def relocated(path):
    """The bytes of an object, with the relocations of its debugging information done, or None where it has none."""
    with open(path, "rb") as file:
        content = bytearray(file.read())
    elf = ELFFile(io.BytesIO(bytes(content)))
    if not elf.get_section_by_name(".debug_info") or elf.get_section_by_name(".debug_info")["sh_flags"] & COMPRESSED:
        return None
    sections = list(elf.iter_sections())
    headers, values = [section.header for section in sections], {}
    for section in sections:
        target = sections[section["sh_info"]] if isinstance(section, RelocationSection) else None
        if target and target.name.startswith(".debug_") and not target["sh_flags"] & COMPRESSED:
            number = section["sh_link"]
            values[number] = values.get(number) or list(values_of(headers, sections[number]))
            relocate(content, target["sh_offset"], section.data(), values[number])
    return bytes(content)


def relocate(content, start, rows, values):
    """Does the relocations of a section, in their order."""
    for offset, named, addend in struct.iter_unpack("<QQq", rows):
        patch(content, start + offset, named & 0xFFFFFFFF, values[named >> 32] + addend)


def info_of(path):
    """The debugging information of an object as pyelftools has it, and its units, or None and none."""
    content = relocated(path)
    if content is None:
        return None, []
    info = ELFFile(io.BytesIO(content)).get_dwarf_info(relocate_dwarf_sections=False)
    units = list(info.iter_CUs())
    for unit in units:  # sums of files, as clang writes them, are what pyelftools 0.29 does not know
        unit.structs.Dwarf_dw_form.setdefault("DW_FORM_data16", Array(16, unit.structs.Dwarf_uint8("")))
    return info, units


class Lines:
    """The file and the line of each place of code, as far as an object has them."""

    def __init__(self, path):
        self.rows = []
        try:
            info, units = info_of(path)
            for unit in units:
                self.rows += rows_of(info.line_program_for_CU(unit))
        except FAULTS:
            self.rows = []  # a file without them, or with some that pyelftools cannot read
        self.rows.sort(key=lambda row: (row[0], row[1] != ""))
        self.starts = [row[0] for row in self.rows]

    def at(self, place):
        """`FILE:LINE`, or nothing."""
        address = place[0] << SECTION | place[1]
        last = bisect.bisect_right(self.starts, address) - 1
        if last < 0 or place_of(self.starts[last])[0] != place[0]:
            return ""
        return self.rows[last][1]


def rows_of(program):
    """Each address at which another line begins, and that line; behind a sequence none."""
    for entry in program.get_entries() if program else ():
        state = entry.state
        if state:
            is_line = not state.end_sequence and state.line
            yield state.address, "%s:%d" % (file_name(program, state.file), state.line) if is_line else ""


def file_name(program, number):
    """A file's name by its number, which counts from 0 in DWARF 5 and from 1 before."""
    name = program["file_entry"][number - (program["version"] < 5)].name
    return os.path.basename(name.decode("utf-8", "replace"))
