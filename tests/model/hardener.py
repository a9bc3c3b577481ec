"""Hardens compiled programs in each form, by docs/MACHINE.md, docs/FORMATS.md and the psABI alone. It takes objects without a fault."""

import struct
from typing import NamedTuple

from tests.model import small_objects
from tests.model.forms import FORMS
from tests.model.program import Program
from tests.model.rules import branch_offset, jal_target
from tests.shared.elf import NOBITS, NOTE, PROGBITS, RELA, SYMTAB
from tests.shared.instructions import ECALL
from tests.shared.units import first_unit, image_file

WRITE, ALLOC, EXECINSTR = 1, 2, 4
FUNC, ABS, COMMON = 2, 0xFFF1, 0xFFF2
ABS32, ABS64, BRANCH, JAL, CALL, CALL_PLT, GOT_HI20 = 1, 2, 16, 17, 18, 19, 20
PCREL_HI20, PCREL_LO12_I, PCREL_LO12_S, HI20, LO12_I, LO12_S = 23, 24, 25, 26, 27, 28
ADD8, SUB8, ADD32, ADD64 = 33, 37, 35, 36
DATA = 0x10000
NEAR = -4096, 4092
CALLS = 63, 64, 93  # which the compiled programs make
MOST_STORES, MOST_APART = 16, 2047  # of a group; and how far its offsets may lie apart
SIZES = {"plain": 4, "jump": 4, "system": 4, "stop": 4, "store": 16, "call": 32, "ijump": 52, "icall": 80, "return": 20}


class Section(NamedTuple):
    name: str
    type: int
    flags: int
    content: bytes
    size: int
    align: int


class Symbol(NamedTuple):
    name: str
    type: int
    section: int
    value: int
    size: int
    binding: int = 0


class Relocation(NamedTuple):
    offset: int
    kind: int
    symbol: int
    addend: int


class Item(NamedTuple):
    """An instruction's place, or the end of a section: the kind of its unit, its word, and its direct target's place."""
    place: tuple
    size: int
    kind: str
    word: int = 0
    target: object = None


def string(table, at):
    return table[at:table.index(b"\0", at)].decode("latin-1")


class Source:
    """An object: its sections, symbols and relocations, and its instructions in order."""

    def __init__(self, content):
        start, = struct.unpack_from("<Q", content, 40)
        count, names = struct.unpack_from("<HH", content, 60)
        headers = [struct.unpack_from("<IIQQQQIIQQ", content, start + 64 * k) for k in range(count)]
        parts = [b"" if row[1] == NOBITS else content[row[4]:row[4] + row[5]] for row in headers]
        self.sections = [Section(string(parts[names], row[0]) if row[1] else "", row[1], row[2], part, row[5], max(row[8], 1))
                         for row, part in zip(headers, parts)]
        table = next(k for k, row in enumerate(headers) if row[1] == SYMTAB)
        rows = struct.iter_unpack("<IBBHQQ", parts[table])
        names = parts[headers[table][6]]
        self.symbols = [Symbol(string(names, row[0]), row[1] & 15, *row[3:], row[1] >> 4) for row in rows]
        self.relocations = {k: [] for k in range(count)}
        for row, part in zip(headers, parts):
            if row[1] == RELA and self.is_kept(row[7]):
                self.relocations[row[7]] = [Relocation(at, info & 0xFFFFFFFF, info >> 32, addend)
                                            for at, info, addend in struct.iter_unpack("<QQq", part)]
        self.find_items()

    def find_items(self):
        """The first relocation of each place, and the instructions."""
        self.at = {(k, row.offset): row for k, rows in self.relocations.items() if self.is_code(k)
                   for row in reversed(rows) if row.kind not in (0, 43, 51)}
        self.items = [item for k in range(len(self.sections)) if self.is_code(k) for item in self.items_of(k)]
        self.index = {item.place: k for k, item in enumerate(self.items)}

    def named(self, name):
        """The symbol that a name finds."""
        return next(row for row in self.symbols if row.name == name)

    def is_kept(self, k):
        section = self.sections[k]
        return bool(section.flags & ALLOC) and section.type != NOTE and section.name != ".eh_frame"

    def is_code(self, k):
        return self.is_kept(k) and bool(self.sections[k].flags & EXECINSTR)

    def names_place(self, row):
        """The place of code that a relocation names, if it names one."""
        symbol = self.symbols[row.symbol]
        is_code = symbol.section < len(self.sections) and self.is_code(symbol.section)
        return (symbol.section, symbol.value + row.addend) if is_code else None

    def items_of(self, k):
        words = [word for word, in struct.iter_unpack("<I", self.sections[k].content)]
        pairs = {4 * at for at in range(len(words)) if self.kind_at(k, 4 * at) in (CALL, CALL_PLT)}
        for at, word in enumerate(words):
            if 4 * at - 4 not in pairs:
                is_pair = 4 * at in pairs
                yield self.item(k, 4 * at, 8 if is_pair else 4, words[at + 1] if is_pair else word, is_pair)
        yield Item((k, 4 * len(words)), 0, "stop")

    def kind_at(self, k, offset):
        return self.at[k, offset].kind if (k, offset) in self.at else None

    def item(self, k, offset, size, word, is_pair):
        place, opcode, rd, rs1 = (k, offset), word & 127, word >> 7 & 31, word >> 15 & 31
        named = self.names_place(self.at[place]) if place in self.at else None
        if is_pair:
            return Item(place, size, "call" if rd == 1 else "jump", word, named)
        if opcode == 0x63:
            return Item(place, size, "branch", word, named or (k, offset + branch_offset(word)))
        if opcode == 0x6F:
            own = jal_target(word, offset, rd)
            return Item(place, size, "call" if rd == 1 else "jump", word, named or (k, own))
        if opcode == 0x67:
            return Item(place, size, "icall" if rd == 1 else "return" if rs1 == 1 else "ijump", word)
        return Item(place, size, {0x23: "store", 0x73: "system"}.get(opcode, "plain"), word)


class Flow:
    """Where the computed transfers of an object may go, by the indices of places, and the labels of what is joined."""

    def __init__(self, source, apart, policy):
        self.source, self.listed, items = source, dict(self.lines_of(source, policy)), source.items
        self.calls = calls_of(policy)
        self.sites = [k for k, item in enumerate(items) if item.kind in ("icall", "ijump")]
        self.taken = set(self.taken_places())
        self.functions = [row for row in source.symbols if row.type == FUNC and (row.section, row.value) in source.index]
        sorts = [["icall"], ["ijump"]] if apart else [["icall", "ijump"]]
        used = {item.word >> 12 for item in items if item.word & 0xFFF == 0x37}
        free = (label for label in range(1, 1 << 20) if label not in used)
        self.label, self.leads = {}, []
        for kinds in sorts:
            self.close([site for site in self.sites if items[site].kind in kinds], free)

    @staticmethod
    def lines_of(source, policy):
        """The site of each line of a policy and its targets."""
        for line in policy.split("\n")[2 if policy.startswith("rvcfi-policy 2") else 1:-2]:
            places = []
            for word in line.split(" ")[1:]:
                name, offset = word.rsplit("+", 1)
                symbol = source.named(name)
                places.append(source.index[symbol.section, symbol.value + int(offset, 16)])
            yield places[0], set(places[1:])

    def taken_places(self):
        source = self.source
        for k, rows in source.relocations.items():
            kinds = (PCREL_HI20, HI20) if source.is_code(k) else (ABS32, ABS64, ADD32, ADD64)
            for row in rows:
                place = source.names_place(row) if source.is_kept(k) and row.kind in kinds else None
                if place in source.index and source.items[source.index[place]].kind != "stop":
                    yield source.index[place]

    def targets(self, site):
        if site in self.listed:
            return self.listed[site]
        place, kind = self.source.items[site].place, self.source.items[site].kind
        starts = {self.source.index[row.section, row.value] for row in self.functions}
        found = self.taken & starts
        for row in self.functions if kind == "ijump" else []:
            if row.section == place[0] and row.value <= place[1] < row.value + row.size:
                found |= {k for k in self.taken if self.source.items[k].place[0] == row.section
                          and row.value <= self.source.items[k].place[1] < row.value + row.size}
        return found

    def close(self, sites, free):
        """The classes of some sites, their labels, and which label leads which target."""
        sets, classes = {site: self.targets(site) for site in sites}, []
        for targets in sets.values():
            if targets:
                joined = [other for other in classes if other & targets]
                classes = [other for other in classes if not other & targets] + [targets.union(*joined)]
        labels = [(next(free), sorted(each)) for each in sorted(classes, key=min)]
        lead = {target: label for label, each in labels for target in each}
        self.label.update({site: lead[min(targets)] if targets else next(free) for site, targets in sorted(sets.items())})
        self.leads.append(lead)

    def is_target(self, k):
        return any(k in lead for lead in self.leads)


def calls_of(policy):
    """The numbers of system calls that a policy lists, or None."""
    lines = policy.split("\n")
    return [int(word) for word in lines[1].split()[1:]] if lines[0] == "rvcfi-policy 2" else None


def low(value):
    return (value & 0xFFF) - ((value & 0x800) << 1)


def store_offset(word):
    """The signed offset of a store."""
    return low(word >> 25 << 5 | word >> 7 & 31)


class Groups:
    """Which stores may stand behind one mask."""

    def __init__(self, source, flow, entry):
        self.source, items = source, source.items
        self.led = {source.index[item.target] for item in items if item.target} | {entry} | flow.taken
        self.led |= {k for lead in flow.leads for k in lead}

    def is_own(self, k):
        """Whether no relocation changes a store's offset."""
        return self.source.items[k].place not in self.source.at

    def may_join(self, k, group):
        """Whether a store may join the group of the places right before it."""
        words = [self.source.items[j].word for j in [*group, k]]
        offsets = [store_offset(word) for word in words]
        return (0 < len(group) < MOST_STORES and k not in self.led and all(map(self.is_own, [*group, k]))
                and len({word >> 15 & 31 for word in words}) == 1 and max(offsets) - min(offsets) <= MOST_APART)

    def all(self):
        """The groups, from left to right: the places of each."""
        groups, group = [], []
        for k, item in enumerate(self.source.items):
            if item.kind != "store":
                group = []
            elif self.may_join(k, group):
                group.append(k)
            else:
                group = [k]
                groups.append(group)
        return groups


def size_of(item, calls):
    """How many bytes an instruction's unit has under a list of system calls; of a store alone, and of a near branch."""
    if item.kind == "system" and item.word == ECALL and calls is not None:
        return 8 + 8 * len(calls)
    return SIZES[item.kind]


class Layout:
    """The gates and the words of places, with stores in groups and as many short branches as there can be."""

    GROUPS = Groups

    def __init__(self, source, flow, first, entry):
        self.source, self.flow, self.first, items = source, flow, first, source.items
        self.targets = [source.index[item.target] if item.target else None for item in items]
        self.group = {group[0]: group for group in self.GROUPS(source, flow, entry).all()}
        branches = [k for k, item in enumerate(items) if item.kind == "branch"]
        self.long = {k for k in branches if self.is_kept(k)}
        self.place()
        while True:
            far = {k for k in branches if k not in self.long and not NEAR[0] <= self.gates[self.targets[k]] - self.words[k] <= NEAR[1]}
            if not far:
                return
            self.long |= far
            self.place()

    def is_kept(self, k):
        """Whether a branch over one word is read as two words because that word is a jump."""
        over = self.source.items[k + 1].kind
        return self.targets[k] == k + 2 and (over == "stop" or over == "jump" and not self.lead(k + 1))

    def lead(self, k):
        """How many bytes stand before a place's unit."""
        return 4 * len(self.flow.leads) if self.flow.is_target(k) else 0

    def place(self):
        self.gates, self.words, at = [], [], self.first
        for k, item in enumerate(self.source.items):
            self.gates.append(at)
            at += self.lead(k)
            self.words.append(at)
            at += self.size(k, item.kind)

    def size(self, k, kind):
        if kind == "branch":
            return 8 if k in self.long else 4
        if kind == "store" and k not in self.group:
            return 4
        return size_of(self.source.items[k], self.flow.calls)


def high(value):
    return (value - low(value) >> 12) & 0xFFFFF


class Hardening:
    """What an object, or several as one, becomes in a form: its image, its graph and its map."""

    FORMS, LAYOUT = FORMS, Layout

    def __init__(self, source, entry, form, policy=""):
        self.source = source
        self.form = self.FORMS[form]
        self.flow = Flow(self.source, self.form.graph > 1, policy)
        first = self.source.named(entry)
        start = self.source.index[first.section, first.value]
        self.layout = self.LAYOUT(self.source, self.flow, first_unit(self.form.image, self.form.graph), start)
        self.data, self.places = self.data_places()
        self.program = self.new_program()
        self.write_units()
        self.built = self.program.built(self.called(start), self.patched_data())
        self.image, self.graph = image_file(self.built.code, self.built.data, self.form.image), self.built.graph
        self.map = self.map_text().encode()

    def new_program(self):
        return Program(self.form.image, self.form.graph, self.flow.calls)

    def called(self, k):
        """Where calls of a place go."""
        return self.layout.gates[k]

    def data_places(self):
        """The address of each section of data, and where initialised data end; and the addresses of common symbols."""
        source, at, found = self.source, DATA, {}
        kept = [k for k in range(len(source.sections)) if source.is_kept(k) and not source.is_code(k)]
        initialised = DATA
        for is_zeroed in (False, True):
            for k in kept:
                section = source.sections[k]
                if (section.type == NOBITS) == is_zeroed:
                    found[k] = at = -(-at // section.align) * section.align
                    at += section.size
                    initialised = initialised if is_zeroed else at
        for number, symbol in enumerate(source.symbols):
            if symbol.section == COMMON:
                found["common", number] = at = -(-at // max(symbol.value, 1)) * max(symbol.value, 1)
                at += symbol.size
        return initialised - DATA, found

    def value(self, row):
        """What a relocation refers to."""
        symbol, place = self.source.symbols[row.symbol], self.source.names_place(row)
        if place is not None:
            return self.layout.gates[self.source.index[place]]
        if row.symbol == 0:
            return row.addend
        if symbol.section == ABS:
            return symbol.value + row.addend
        if symbol.section == COMMON:
            return self.places["common", row.symbol] + row.addend
        return self.places[symbol.section] + symbol.value + row.addend

    def patched(self, k, item):
        """An instruction's word with its relocation."""
        row = self.source.at.get(item.place)
        word = item.word
        if row is None or row.kind in (BRANCH, JAL, CALL, CALL_PLT):
            return word
        if row.kind in (HI20, PCREL_HI20, GOT_HI20):
            value = self.value(row) - (0 if row.kind == HI20 else self.layout.words[k])
            return word & 0xFFF | high(value) << 12
        imm = low(self.value(row)) if row.kind in (LO12_I, LO12_S) else low(self.distance(row))
        if row.kind in (LO12_I, PCREL_LO12_I):
            return word & 0xFFFFF | (imm & 0xFFF) << 20
        return word & 0x1FFF07F | (imm & 31) << 7 | (imm >> 5 & 127) << 25

    def distance(self, row):
        """The distance of the AUIPC that a relocation's symbol labels."""
        place = self.source.names_place(row)
        return self.value(self.source.at[place]) - self.layout.words[self.source.index[place]]

    def write_units(self):
        program, source = self.program, self.source
        for site in self.flow.sites:
            if not self.flow.targets(site):
                kind = {"icall": "call", "ijump": "jump"}[source.items[site].kind]
                program.listed(kind + "class" if self.form.graph > 1 else "class", self.flow.label[site])
        for k, item in enumerate(source.items):
            assert program.at == self.layout.gates[k] or item.kind == "store" and k not in self.layout.group
            self.write_lead(k)
            self.write_unit(k, item, self.patched(k, item))

    def write_lead(self, k):
        """The words before a place's unit."""
        labels = [lead.get(k) for lead in self.flow.leads]
        if self.form.graph == 2 and any(labels):
            self.program.target(*labels)
        elif any(labels):
            self.program.gate(labels[0])

    def write_unit(self, k, item, word):
        program, target = self.program, self.layout.targets[k]
        to = self.layout.gates[target] if target is not None else None
        rs1, rs2, funct3, imm = word >> 15 & 31, word >> 20 & 31, word >> 12 & 7, low(word >> 20)
        if item.kind == "branch":
            put = program.branch if k in self.layout.long else program.near
            put(funct3 ^ 1 if k in self.layout.long else funct3, rs1, rs2, to)
        elif item.kind == "jump":
            program.jump(to)
        elif item.kind == "call":
            program.call(self.called(target))
        elif item.kind in ("ijump", "icall"):
            getattr(program, item.kind)(rs1, imm, self.flow.label[k])
        elif item.kind == "store":
            self.write_stores(k, rs1)
        elif item.kind == "return":
            program.returns()
        elif item.kind == "system" and word == ECALL:
            program.ecall()
        elif item.kind == "stop":
            program.stop()
        else:
            program.plain(word)

    def write_stores(self, k, rs1):
        """The unit of the group that a store begins; a later one stands in it."""
        group = self.layout.group.get(k, [])
        words = [self.patched(j, self.source.items[j]) for j in group]
        least = min(map(store_offset, words), default=0)
        if group:
            self.program.stores(rs1, least, [(word >> 12 & 7, word >> 20 & 31, store_offset(word) - least) for word in words])

    def patched_data(self):
        data = bytearray(self.data)
        for k, at in self.places.items():
            section = self.source.sections[k] if isinstance(k, int) else None
            if section and section.type == PROGBITS:
                data[at - DATA:at - DATA + section.size] = section.content
                for row in self.source.relocations[k]:
                    self.patch_data(data, at - DATA + row.offset, row)
        return bytes(data)

    def patch_data(self, data, at, row):
        if row.kind == 0:
            return
        width = {ABS32: 4, ABS64: 8}.get(row.kind) or 1 << (row.kind - ADD8) % 4
        before = int.from_bytes(data[at:at + width], "little")
        sign = 0 if row.kind in (ABS32, ABS64) else 1 if row.kind < SUB8 else -1
        value = self.value(row) if not sign else before + sign * self.value(row)
        data[at:at + width] = (value % (1 << 8 * width)).to_bytes(width, "little")

    def map_text(self):
        lines = ["at %08x %04x %08x" % (gate, *item.place) for gate, item in zip(self.layout.gates, self.source.items)]
        return "\n".join([self.form.map, *lines, "end", ""])

    def told(self):
        """What `rvcfi harden` puts of it."""
        classes = sum(line.split(b" ")[0].endswith(b"class") for line in self.graph.split(b"\n"))
        return b"rewritten code %d data %d classes %d sites %d\n" % (len(self.built.code), self.data, classes, len(self.flow.sites))


SMALL = {"Returning": small_objects.B, "Calling": small_objects.P, "Writing": small_objects.H, "Recursive": small_objects.R,
         "Jumping": small_objects.Q, "Apart": small_objects.APART, "Sorts": small_objects.SORTS, "Switching": small_objects.TABLE,
         "Led": small_objects.LED, "Patched": small_objects.PATCHED}


def small_object(row):
    """The object of a row of forms.py with its change; that with other code returns where it has its own."""
    source, offset, digits = row.object.split(", ")
    change = bytes.fromhex(digits[2:-1])
    if source == "Coded":
        content, section = SMALL["Returning"].file(), 216
        return content[:section] + struct.pack("<QQ", len(content), len(change)) + content[section + 16:] + change
    content = SMALL[source].file()
    return content[:int(offset)] + change + content[int(offset) + len(change):]
