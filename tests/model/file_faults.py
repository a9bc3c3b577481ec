"""What `rvcfi verify` answers of files that are no image and no graph, by docs/FORMATS.md alone: the image's first fault, or the graph's."""

import re

PAGE, HEADERS = 0x1000, 232
CODE, CODE_SIZE, DATA, DATA_SIZE, SHADOW = 0x40000000, 0x100000, 0x10000, 0xFFF1000, 0x60000000
SHADOW_SIZE = {1: 0x10000, 2: 0x80000}
MOST_CODE, MOST_DATA, MOST_NUMBER, MOST_NUMBERS = 1 << 20, 1 << 25, 2047, 8
IDENT = b"\x7fELF\x02\x01\x01" + bytes(9)
HEADER = [(16, 2, 2), (18, 2, 243), (20, 4, 1), (24, 8, 0x4000000C), (32, 8, 64), (40, 8, 0), (48, 4, 0), (52, 2, 64), (54, 2, 56), (56, 2, 3),
          (58, 2, 0), (60, 2, 0), (62, 2, 0)]
ADDRESS, LABEL = "([0-9a-f]{8})", "([0-9a-f]{5})"
NUMBER = "(?:0|[1-9][0-9]*)"


class Refused(Exception):
    """Why a text is no graph: the number of a line, and the reason."""


def field(content, at, size):
    return int.from_bytes(content[at:at + size], "little")


def data_start(code):
    return PAGE + -(-code // PAGE) * PAGE


def segment(at, flags, offset, address, in_file, in_memory):
    """The fields of a program header: where each stands, its size, and its value; None where no value is right."""
    return [(at, 4, 1), (at + 4, 4, flags), (at + 8, 8, offset), (at + 16, 8, address), (at + 24, 8, address), (at + 32, 8, in_file),
            (at + 40, 8, in_memory), (at + 48, 8, PAGE)]


def fields(version, code, data):
    """All fields behind the ident, of a file whose headers tell this version and these lengths."""
    right = code if code % 4 == 0 and 4 <= code <= MOST_CODE else None
    return (HEADER + segment(64, 6, data_start(code), DATA, data if data <= MOST_DATA else None, DATA_SIZE)
            + segment(120, 5, PAGE, CODE, right, CODE_SIZE) + segment(176, 6, 0, SHADOW, 0, SHADOW_SIZE[version]))


def image_fault(content):
    """The words behind `refused 22` of a file that is no image, or None."""
    if len(content) < HEADERS:
        return "Short %d" % len(content)
    version = 2 if field(content, 216, 8) == SHADOW_SIZE[2] else 1
    code, data = field(content, 152, 8), field(content, 96, 8)
    if content[:16] != IDENT:
        return "Byte 0"
    for at, size, value in fields(version, code, data):
        if field(content, at, size) != value:
            return "Byte %d" % at
    start = data_start(code)
    if len(content) != start + data:
        return "%s %d" % ("Short" if len(content) < start + data else "Long", len(content))
    for at in [*range(HEADERS, PAGE), *range(PAGE + code, start)]:
        if content[at]:
            return "Byte %d" % at
    return None


class Text:
    """A graph that is read line by line."""

    VERSIONS = "1", "2"

    def __init__(self, text):
        self.lines = text.decode("latin-1").split("\n")  # the last is what stands behind the last newline
        self.version, self.code, self.last = None, None, None

    def line(self, number):
        """A line that has its newline."""
        if number >= len(self.lines):
            raise Refused(number, "Form")
        return self.lines[number - 1]

    def read(self):
        if self.line(1) not in ["rvcfi-graph " + version for version in self.VERSIONS]:
            raise Refused(1, "Form")
        self.version = int(self.lines[0][-1])
        self.code = self.length(self.line(2))
        number = 3
        while self.line(number) != "end":
            self.check(number, self.line(number))
            number += 1
        if self.lines[number:] != [""]:
            raise Refused(number + 1, "Form")

    def length(self, line):
        found = re.fullmatch("code 40000000 " + ADDRESS, line)
        if not found:
            raise Refused(2, "Form")
        length = int(found[1], 16)
        if length % 4 or not 4 <= length <= MOST_CODE:
            raise Refused(2, "Range")
        return length

    def is_address(self, digits):
        at = int(digits, 16)
        return at % 4 == 0 and CODE <= at < CODE + self.code

    def readers(self, number):
        """What reads the line with a number; of a line that is none of its own each answers None."""
        return [self.calls] * (number == 3) + [self.targets, self.transfer]

    def check(self, number, line):
        """Asks a line from the third on for its form, its numbers and its order, and goes on behind it."""
        for read in self.readers(number):
            found = read(line)
            if found:
                in_range, rises, key = found
                break
        else:
            raise Refused(number, "Form")
        if not in_range:
            raise Refused(number, "Range")
        if not rises or (self.last is not None and key <= self.last):
            raise Refused(number, "Order")
        self.last = key

    def calls(self, line):
        """The list: whether its numbers are allowed, whether they rise, and its place."""
        if not re.fullmatch("calls(?: %s){1,%d}" % (NUMBER, MOST_NUMBERS), line):
            return None
        numbers = [int(word) for word in line.split(" ")[1:]]
        return all(each <= MOST_NUMBER for each in numbers), numbers == sorted(set(numbers)), (0, 0)

    def targets(self, line):
        """A class's line."""
        name = "class" if self.version == 1 else "(?:call|jump)class"
        found = re.fullmatch("%s %s((?: [0-9a-f]{8})*)" % (name, LABEL), line)
        if not found:
            return None
        label, addresses = int(found[1], 16), found[2].split()
        return label > 0 and all(map(self.is_address, addresses)), addresses == sorted(set(addresses)), (1, label)

    def transfer(self, line):
        """The line of a site, an edge or a call."""
        site, edge = re.fullmatch("site %s (?:call|jump) %s" % (ADDRESS, LABEL), line), re.fullmatch("(?:edge|call) %s %s" % (ADDRESS, ADDRESS), line)
        if not site and not edge:
            return None
        at, other = (site or edge).groups()
        return self.is_address(at) and (int(other, 16) > 0 if site else self.is_address(other)), True, (2, int(at, 16))


def graph_fault(text, reader=Text):
    """The words behind `refused 23` of a text that is no graph, or None."""
    try:
        reader(text).read()
    except Refused as why:
        return "Graph %d %s" % why.args
    return None

