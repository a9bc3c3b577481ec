"""How bytes are turned: bits, bytes, ranges, fields of ELF files, words of code, lines and words of texts.

Each turn takes a source of random numbers and the bytes, and answers other bytes (or, where it finds nothing to turn, these).
"""

import struct

from tests.shared.forms import FORMS

LIMITS = [0, 1, 2, 3, 4, 7, 8, 15, 16, 24, 63, 64, 0x7F, 0x80, 0xFF, 0x100, 0xFFF, 0x1000, 0x1001, 0x7FFF, 0x8000, 0xFEFF, 0xFF00,
          0xFFF1, 0xFFF2, 0xFFFF, 0x10000, 0xFFFFC, 0xFFFFF, 0x100000, 1 << 25, (1 << 26) - 1, 0xFF00000, 0xFFF1000, (1 << 28) - 1,
          1 << 28, 0x40000000, 0x40000040, 0x400FFFFC, 0x60000000, 0x7FFFFFFF, 1 << 31, (1 << 32) - 1, 1 << 32, 1 << 62,
          (1 << 63) - 1, 1 << 63, (1 << 64) - 1, (1 << 64) - 64, (1 << 64) - 4096]
WORDS = [b"", b" ", b"+", b"calls", b"64", b"2047", b"2048", b"rvcfi-policy", b"rvcfi-map", b"rvcfi-graph", b"1", b"2", b"-1", b"none",
         b"end", b"at", b"site", b"turn", b"class", b"callclass", b"jumpclass", b"leaf", b"3", b"0x10", b"9" * 30, b"\xff\0", *(form.encode() for form in FORMS)]
FORMATS = {1: "<B", 2: "<H", 4: "<I", 8: "<Q"}
SPECIAL = [0x00000073, 0x00100073, 0x00008067, 0x00000067, 0x0000006F, 0x000000EF, 0xFB5FF06F, 0x00000037, 0x00001037, 0x00000517,
           0x00000013, 0x00000000, 0xFFFFFFFF, 0x0000000F, 0x0000100F, 0xC0002573, 0x00028067, 0x000280E7, 0x00000063, 0x00000463,
           0x000F8067, 0x000F80E7, 0x01E1B023, 0x00818193, 0xFF81BF83, 0xFF818193, 0x00000F17, 0x014F0F13,
           0x03F00F93, 0x04000F93, 0x05D00F93, 0x011F8463, 0x011F8863, 0x011F8C63]


def place(draw, content):
    return draw.randrange(len(content)) if content else 0


def span(draw, content):
    """The ends of a range, most often a short one."""
    start = place(draw, content)
    return start, min(len(content), start + draw.choice([1, 2, 4, 8, 16, 24, 64, draw.randrange(1, 5000)]))


def bit(draw, content):
    at = place(draw, content)
    return content[:at] + bytes([content[at] ^ 1 << draw.randrange(8)]) + content[at + 1:] if content else content


def byte(draw, content):
    at = place(draw, content)
    return content[:at] + bytes([draw.choice([0, 1, 0x7F, 0x80, 0xFF, draw.randrange(256)])]) + content[at + 1:]


def cut(draw, content):
    """A shorter file: its beginning, or seldom its end."""
    at = draw.choice([place(draw, content), max(0, len(content) - draw.randrange(1, 70))])
    return content[at:] if draw.random() < 0.1 else content[:at]


def removed(draw, content):
    start, end = span(draw, content)
    return content[:start] + content[end:]


def inserted(draw, content):
    start, end = span(draw, content)
    what = draw.choice([bytes(end - start), draw.randbytes(end - start), content[start:end]])
    return content[:start] + what + content[start:]


def copied(draw, content):
    """A range over another one."""
    start, end = span(draw, content)
    at = place(draw, content)
    return content[:at] + content[start:end] + content[at + end - start:]


def zeroed(draw, content):
    start, end = span(draw, content)
    return content[:start] + draw.choice([b"\0", b"\xff"]) * (end - start) + content[end:]


def longer(draw, content):
    return content + draw.choice([b"\0", b"\n", b" ", draw.randbytes(draw.randrange(1, 9)), bytes(draw.randrange(1, 9000))])


def number(draw, old, width, size):
    """Another number for a field of so many bytes, in a file of this size."""
    near = draw.choice([old, size, size - old])
    new = draw.choice([draw.choice(LIMITS), near + draw.randrange(-9, 10), near + draw.choice([-64, -24, 24, 64]),
                       old ^ 1 << draw.randrange(8 * width), -draw.choice(LIMITS), draw.getrandbits(8 * width)])
    return new % (1 << 8 * width)


def with_number(draw, content, at, width):
    """The field at an offset becomes another number."""
    if not 0 <= at <= len(content) - width:
        return content
    old, = struct.unpack_from(FORMATS[width], content, at)
    return content[:at] + struct.pack(FORMATS[width], number(draw, old, width, len(content))) + content[at + width:]


def any_number(draw, content):
    width = draw.choice([2, 4, 8])
    return with_number(draw, content, place(draw, content) // width * width, width)


# the offset and the width of each field
HEADER = [(k, 1) for k in range(16)] + [(k, 2) for k in (16, 18, 52, 54, 56, 58, 60, 62)] + [(20, 4), (48, 4)]
HEADER += [(24, 8), (32, 8), (40, 8)]
SECTION = [(0, 4), (4, 4), (8, 8), (16, 8), (24, 8), (32, 8), (40, 4), (44, 4), (48, 8), (56, 8)]
SEGMENT = [(0, 4), (4, 4), (8, 8), (16, 8), (24, 8), (32, 8), (40, 8), (48, 8)]
SYMBOL = [(0, 4), (4, 1), (5, 1), (6, 2), (8, 8), (16, 8)]
RELOCATION = [(0, 8), (8, 4), (12, 4), (16, 8)]
SYMTAB, RELA = 2, 4


class Section:
    """A section's header, its type and its place in the file, as far as they are right."""

    def __init__(self, content, header):
        self.header = header
        row = struct.unpack_from("<IIQQQQIIQQ", content, header)
        self.kind, self.flags, self.start, self.size, self.link = row[1], row[2], row[4], row[5], row[6]
        self.whole = self.start + self.size <= len(content)
        self.is_code = self.whole and self.kind == 1 and self.flags & 4 != 0


def sections(content):
    """The sections of an object, and none of what is no ELF file."""
    if len(content) < 64 or content[:4] != b"\x7fELF":
        return []
    start, = struct.unpack_from("<Q", content, 40)
    count, = struct.unpack_from("<H", content, 60)
    return [Section(content, start + 64 * k) for k in range(count) if start + 64 * k + 64 <= len(content)]


def rows_of(draw, content):
    """A table of an ELF file: its start, the size of a row, how many there are, and a row's fields."""
    segments = [(64, 56, 3, SEGMENT)] if content[54:58] == b"\x38\0\3\0" else []
    found = sections(content)
    tables = [(found[0].header, 64, len(found), SECTION)] if found else []
    rows = [(it.start, 24, it.size // 24, SYMBOL if it.kind == SYMTAB else RELOCATION)
            for it in found if it.kind in (SYMTAB, RELA) and it.whole and it.size >= 24]
    return draw.choice(segments + 2 * tables + rows + rows[:3] or [(0, 64, 1, HEADER)])


def field(draw, content):
    """A field of a header or a row becomes another number."""
    start, size, count, fields = (0, 64, 1, HEADER) if draw.random() < 0.15 else rows_of(draw, content)
    at, width = draw.choice(fields)
    return with_number(draw, content, start + size * draw.randrange(count) + at, width)


def field_of_other(draw, content):
    """A field of a row becomes that of another row, or the whole row does."""
    start, size, count, fields = rows_of(draw, content)
    at, width = draw.choice(fields + [(0, size)])
    source, target = (start + size * draw.randrange(count) + at for _ in range(2))
    return content[:target] + content[source:source + width] + content[target + width:]


def rows_swapped(draw, content):
    start, size, count, _ = rows_of(draw, content)
    one, other = sorted(start + size * draw.randrange(count) for _ in range(2))
    if one == other:
        return content
    return content[:one] + content[other:other + size] + content[one + size:other] + content[one:one + size] + content[other + size:]


def codes_of(content):
    """Where code stands in an object or an image."""
    if content[54:58] == b"\x38\0\3\0" and len(content) >= 232:
        return [(4096, min(struct.unpack_from("<Q", content, 152)[0], len(content) - 4096))]
    return [(it.start, it.size) for it in sections(content) if it.is_code]


def code_word(draw, content):
    """A word of code becomes another: one of its bits, another word of the code, or one of a list."""
    places = [(start, size) for start, size in codes_of(content) if size >= 4]
    if not places:
        return content
    start, size = draw.choice(places)
    at, other = (start + 4 * draw.randrange(size // 4) for _ in range(2))
    old, = struct.unpack_from("<I", content, at)
    new = draw.choice([old ^ 1 << draw.randrange(32), struct.unpack_from("<I", content, other)[0], draw.choice(SPECIAL),
                       old & 0xFFF | draw.getrandbits(20) << 12])
    return content[:at] + struct.pack("<I", new) + content[at + 4:]


def lines_turned(draw, content):
    """A line is taken out, doubled, swapped with another, moved, cut or joined with the next one."""
    lines = content.split(b"\n")
    one, other = place(draw, lines), place(draw, lines)
    kind = draw.randrange(6)
    if kind == 0:
        del lines[one]
    elif kind == 1:
        lines.insert(one, lines[one])
    elif kind == 2:
        lines[one], lines[other] = lines[other], lines[one]
    elif kind == 3:
        lines.insert(other, lines.pop(one))
    elif kind == 4:
        lines[one] = lines[one][:place(draw, lines[one])]
    else:
        lines[one:one + 2] = [draw.choice([b"", b" ", b"\r\n", b"\0"]).join(lines[one:one + 2])]
    return b"\n".join(lines)


def new_word(draw, old):
    """Another word of a text: a number near it or at its limits, in hexadecimal of its width or in decimal; or a PLACE near it."""
    name, plus, digits = old.rpartition(b"+")
    value = int(digits, 16) if digits and set(digits) <= set(b"0123456789abcdef") else draw.getrandbits(32)
    if plus and draw.random() < 0.7:
        return b"%s+%x" % (name, (value + draw.choice([-8, -4, 4, 8, 1])) % (1 << 32))
    near = draw.choice([value + draw.choice([-8, -4, -1, 1, 4, 8]), draw.choice(LIMITS), value ^ 1 << draw.randrange(32)])
    other = draw.choice(WORDS + [old.upper(), old + b" ", old + b"0", b"0" + old])
    return draw.choice([b"%0*x" % (len(old), near % (1 << 64)), b"%d" % near, other])


def word_turned(draw, content):
    """A word of a line becomes another, or that at its place in another line."""
    lines = [line.split(b" ") for line in content.split(b"\n")]
    words, others = lines[place(draw, lines)], lines[place(draw, lines)]
    at = place(draw, words)
    words[at] = others[at] if at < len(others) and draw.random() < 0.4 else new_word(draw, words[at])
    return b"\n".join(b" ".join(line) for line in lines)


def words_moved(draw, content):
    """A word of a line is taken out, doubled, or moved to another place or line."""
    lines = [line.split(b" ") for line in content.split(b"\n")]
    words, others = lines[place(draw, lines)], lines[place(draw, lines)]
    at = place(draw, words)
    kind = draw.randrange(3)
    if kind == 0:
        del words[at]
    else:
        target = words if kind == 1 else others
        target.insert(draw.randrange(len(target) + 1), words[at])
    return b"\n".join(b" ".join(line) for line in lines)


BYTES = [bit, byte, cut, removed, inserted, copied, zeroed, longer, any_number]
OBJECT = BYTES + 6 * [field] + 2 * [field_of_other, rows_swapped] + 6 * [code_word]
IMAGE = BYTES + 2 * [field] + 18 * [code_word]
TEXT = BYTES[:7] + 8 * [lines_turned] + 8 * [word_turned] + 6 * [words_moved]


def turned(draw, content, turns):
    """These bytes after one to six turns of a list, most often one."""
    for _ in range(draw.choice([1, 1, 1, 1, 2, 2, 3, 6])):
        content = draw.choice(turns)(draw, content)
    return content
