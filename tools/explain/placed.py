"""Where the data of objects stand in an image, as docs/COMMANDS.md ("link") has it: a map has the places of code alone."""

from .elf import GOT_HI20
from .joined import Joined, is_shared
from .texts import Wrong

DATA = 0x10000
SLOT = 8  # bytes of the table of addresses for each symbol in it
COMMON = "SHN_COMMON"


def aligned(at, alignment):
    return -(-at // max(alignment, 1)) * max(alignment, 1)


class Data:
    """The address of each section of data by its number, of each common symbol by its number among all, and where initialized data end."""

    def __init__(self, read):
        self.read, self.sections, self.commons, self.at = read, {}, {}, DATA
        self.place_sections(is_zeroed=False)
        self.place_table()
        self.end = self.at
        self.place_sections(is_zeroed=True)
        self.place_commons()

    def place_sections(self, is_zeroed):
        read = self.read
        for number, header in enumerate(read.headers):
            if read.is_kept(number) and not read.is_code(number) and read.is_zeroed(number) == is_zeroed:
                self.sections[number] = self.at = aligned(self.at, header["sh_addralign"])
                self.at += header["sh_size"]

    def place_table(self):
        """The table of addresses has a slot for each symbol that a GOT_HI20 names."""
        named = {row.symbol for row in self.read.relocations if row.kind == GOT_HI20 and self.read.is_code(row.section)}
        self.at = aligned(self.at, SLOT) + SLOT * len(named) if named else self.at

    def place_commons(self):
        for number, symbol in enumerate(self.read.symbols):
            if symbol.section == COMMON and self.is_definition(number):
                self.commons[number] = self.at = aligned(self.at, self.alignment(symbol))
                self.at += symbol.size

    def is_definition(self, number):
        """Whether a common symbol takes place: of several objects the one that defines its name."""
        symbol = self.read.symbols[number]
        is_one = not isinstance(self.read, Joined) or not is_shared(symbol)
        return is_one or self.read.definers.get(symbol.name) == number

    def alignment(self, symbol):
        """Of several objects that of the most aligned common symbol of the name."""
        is_same = lambda other: other.section == COMMON and other.name == symbol.name and is_shared(other)
        rows = self.read.symbols if isinstance(self.read, Joined) and is_shared(symbol) else []
        return max([symbol.value] + [other.value for other in rows if is_same(other)])

    def address(self, number):
        """Where a symbol of data stands, or None."""
        symbol = self.read.symbols[number]
        if symbol.section in self.sections:
            return self.sections[symbol.section] + symbol.value
        return self.commons.get(number)


def variables(read, data):
    """The symbols of data with their addresses, in the order of their tables."""
    for number, symbol in enumerate(read.symbols):
        address = data.address(number)
        if address is not None and symbol.name and symbol.kind in ("STT_OBJECT", "STT_NOTYPE"):
            yield symbol, address


def asked(read, data, name):
    """The lines of the variables of a name."""
    found = [(symbol, address) for symbol, address in variables(read, data) if symbol.name == name]
    if not found:
        raise Wrong("no variable has the name %s" % name)
    return ["%08x %s %d bytes%s" % (address, symbol.name, symbol.size, " of " + symbol.file if symbol.file else "")
            for symbol, address in found]
