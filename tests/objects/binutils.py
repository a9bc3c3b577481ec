"""What binutils and lld say of objects: their sections and symbols, the programs that they are, and what they are linked to.

Instructions are counted as `objdump -d` names them, relocations and symbols as `readelf -SWsr` lists them. A pair is an instruction with
a relocation CALL or CALL_PLT and the one after it. A place is taken where a relocation of the types 32, 64, ADD32, ADD64, HI20,
PCREL_HI20 or GOT_HI20 comes to an instruction's offset with its symbol's value and its addend. Data stand from 10000h on: sections with
bytes, then the table of addresses, then sections without bytes, then commons in the order of symbols, each at its alignment. The table
has 8 bytes for each symbol that a relocation GOT_HI20 names.
"""

import os
import re
import subprocess
import tempfile

PREFIX = "riscv64-linux-gnu-"
NUMBERS = {"NULL": 0, "PROGBITS": 1, "SYMTAB": 2, "STRTAB": 3, "RELA": 4, "NOTE": 7, "NOBITS": 8, "RISCV_ATTRIBUTE": 0x70000003,
           "RISCV_ATTRIBUTES": 0x70000003}
TYPES = {"NOTYPE": 0, "OBJECT": 1, "FUNC": 2, "SECTION": 3, "FILE": 4}
BINDINGS = {"LOCAL": 0, "GLOBAL": 1, "WEAK": 2}
PLACES = {"UND": 0, "ABS": 0xFFF1, "COM": 0xFFF2}
DATA_START, CODE_START = 0x10000, 0x40000040
KINDS = "gate plain store system branch jump call return ijump icall end".split()
BRANCHES = {"beq", "bne", "blt", "bge", "bltu", "bgeu"}
STORES = {"sb", "sh", "sw", "sd"}
IDLE, PAIRS, TABLE = {0, 43, 51}, {18, 19}, 20
PATCHES, TAKES = {TABLE, *range(23, 29)}, {1, 2, 33 + 2, 33 + 3, 26, 23, TABLE}
SECTION = re.compile(
    r"^  \[ *(\d+)\] (.*?) +([A-Z_]+) +[0-9a-f]{16} [0-9a-f]+ ([0-9a-f]+) [0-9a-f]+ ([ A-Za-z]*?) +\d+ +(\d+) +(\d+)$")
SYMBOL = re.compile(r"^ *(\d+): ([0-9a-f]{16}) +((?:0x)?[0-9a-f]+) ([A-Z_]+) +([A-Z]+) +[A-Z]+ +(\w+)(?: (.*))?$")
HEAD = re.compile(r"^Relocation section '\.rela(.*)' at offset")
RELOCATION = re.compile(r"^([0-9a-f]{16})  ([0-9a-f]{8})([0-9a-f]{8}) R_RISCV_\w+ +(.*)$")
LINE = re.compile(r"^ *([0-9a-f]+):\t[0-9a-f]{8} +\t(\S+)(?:\t(.*))?$")
PART = re.compile(r"^Disassembly of section (.*):$")


def told(tool, *words):
    return subprocess.run([PREFIX + tool, *words], check=True, capture_output=True, text=True).stdout.splitlines()


def tables(path):
    """Sections by index, symbols by number, and the relocations of each section by its name."""
    sections, symbols, relocations, target = [], [], {}, None
    for line in told("readelf", "-SWsr", path):
        if found := SECTION.match(line):
            _, name, kind, size, flags, _, align = found.groups()
            sections.append({"name": name, "kind": kind, "size": int(size, 16), "flags": flags, "align": int(align)})
        elif found := HEAD.match(line):
            target = relocations.setdefault(found.group(1), [])
        elif found := RELOCATION.match(line):
            offset, symbol, kind, rest = found.groups()
            sign, digits = re.search(r"([+-]?) ?([0-9a-f]+)$", rest).groups()
            addend = -int(digits, 16) if sign == "-" else int(digits, 16)
            target.append((int(offset, 16), int(symbol, 16), int(kind, 16), addend))
        elif found := SYMBOL.match(line):
            _, value, size, kind, binding, place, name = found.groups()
            symbols.append({"value": int(value, 16), "size": int(size, 0), "kind": kind, "place": place, "binding": binding, "name": name})
    return sections, symbols, relocations


def instructions(path):
    """The lines of each section of code: offset, mnemonic and operands."""
    code, part = {}, None
    for line in told("objdump", "-d", "-z", "-M", "no-aliases,numeric", path):
        if found := PART.match(line):
            part = code.setdefault(found.group(1), [])
        elif found := LINE.match(line):
            offset, name, operands = found.groups()
            part.append((int(offset, 16), name, re.sub(r" *[#<].*", "", operands or "")))
    return code


def kind_of(name, operands, busy):
    if name == "lui":
        return "gate" if operands.startswith("x0,") else "plain"
    if name in STORES:
        return "store"
    if name in ("ecall", "ebreak"):
        return "system"
    if name in BRANCHES:
        return "branch"
    if name == "jal":
        return "jump" if operands.startswith("x0,") else "call"
    if name == "jalr":
        if operands == "x0,0(x1)" and not busy:
            return "return"
        return "ijump" if operands.startswith("x0,") else "icall"
    return "plain"


def aligned(at, align):
    return -(-at // max(align, 1)) * max(align, 1)


def slots_of(uses):
    """How many symbols have a slot in the table of addresses."""
    return len({symbol for _, symbol, kind, _ in uses if kind == TABLE})


def extent(data, symbols, slots):
    at = DATA_START
    for section in data:
        if section["kind"] == "PROGBITS":
            at = aligned(at, section["align"]) + section["size"]
    if slots:
        at = aligned(at, 8) + 8 * slots
    size = at - DATA_START
    for section in data:
        if section["kind"] == "NOBITS":
            at = aligned(at, section["align"]) + section["size"]
    for symbol in symbols:
        if symbol["place"] == "COM":
            at = aligned(at, symbol["value"]) + symbol["size"]
    return size, at


def places_of(code, lines, uses):
    """The kind of each instruction of a section, by its offset."""
    pairs = {offset for offset, _, kind, _ in uses if kind in PAIRS}
    busy = {offset for offset, _, kind, _ in uses if kind not in IDLE}
    places, called = {}, None
    for offset, name, operands in lines:
        if offset in pairs:
            called = offset
        elif called is not None:
            places[called] = "jump" if operands.startswith("x0,") else "call"
            called = None
        else:
            places[offset] = kind_of(name, operands, offset in busy)
    return places


def kept_of(sections):
    return [s for s in sections if "A" in s["flags"] and s["kind"] != "NOTE" and s["name"] != ".eh_frame"]


def text_of(path):
    """A line for each section from number 0: its type, size, flags, name, and how many relocations there are of it if it is kept; and one
    for each symbol: its type, binding, section, value and name. A dash stands for no flag and for an empty name, as of a section's
    symbol, where readelf shows the section's."""
    sections, symbols, relocations = tables(path)
    kept = kept_of(sections)
    for s in sections:
        flags = "".join(letter for letter in "WAX" if letter in s["flags"]) or "-"
        yield "section %d %d %s %s %d" % (NUMBERS[s["kind"]], s["size"], flags, s["name"] or "-",
                                          len(relocations.get(s["name"], [])) if s in kept else 0)
    for s in symbols:
        place = PLACES[s["place"]] if s["place"] in PLACES else int(s["place"])
        name = "-" if s["kind"] == "SECTION" else s["name"] or "-"
        yield "symbol %d %d %d %d %s" % (TYPES[s["kind"]], BINDINGS[s["binding"]], place, s["value"], name)


def program_of(path):
    """What an object is as a program: how many places there are, its instructions, a pair counted once, and the end of each section of
    code, and how many of each kind; how many instructions have their immediate from a relocation, and of how many one takes the address,
    or a slot of the table of addresses; symbols of functions in code; relocations of data by their types; the bytes of initialised data,
    and where all data end. Or why it is none: instructions that name x3, x4, x30 or x31, or symbols that are not defined."""
    sections, symbols, relocations = tables(path)
    kept = kept_of(sections)
    lines = instructions(path)
    for index, section in enumerate(sections):
        for offset, _, operands in lines.get(section["name"], []) if section in kept else []:
            if re.search(r"\bx(3|4|30|31)\b", operands):
                return ["refused ReservedRegister %d %d" % (index, offset)]
    uses = {s["name"]: relocations.get(s["name"], []) for s in kept}
    named = {u[1] for s in kept for u in uses[s["name"]] if u[2] not in IDLE} - {0}
    places = {"ABS", "COM"} | {str(k) for k, s in enumerate(sections) if s in kept}
    undefined = [number for number in sorted(named) if symbols[number]["place"] not in places]
    if undefined:
        return ["refused Undefined %d" % undefined[0]]

    code = [s for s in kept if "X" in s["flags"]]
    data = [s for s in kept if "X" not in s["flags"]]
    kinds, starts = [], set()
    for section in code:
        found = places_of(section, lines.get(section["name"], []), uses[section["name"]])
        kinds += list(found.values()) + ["end"]
        starts |= {(sections.index(section), offset) for offset in found}
    patched = sum(len({u[0] for u in uses[s["name"]] if u[2] in PATCHES}) for s in code)
    taken = {(int(symbols[u[1]]["place"]), symbols[u[1]]["value"] + u[3])
             for s in kept for u in uses[s["name"]] if u[2] in TAKES and symbols[u[1]]["place"].isdigit()}
    functions = sum(s["kind"] == "FUNC" and s["place"].isdigit() and sections[int(s["place"])] in code for s in symbols)
    types = [u[2] for s in data for u in uses[s["name"]]]
    text = ["places %d" % len(kinds)]
    text += ["%s %d" % (kind, kinds.count(kind)) for kind in KINDS if kind in kinds]
    text += ["patched %d" % patched, "taken %d" % len(taken & starts), "functions %d" % functions]
    text += ["relocation %d %d" % (kind, types.count(kind)) for kind in sorted(set(types))]
    slots = slots_of(use for section in code for use in uses[section["name"]])
    return text + ["data %d %d" % extent(data, symbols, slots)]


def placed(data, slots):
    """The sections of data with their addresses, and where they end; the table of addresses is one of them."""
    at, rows = DATA_START, []
    table = [{"name": ".got", "kind": "table", "align": 8, "size": 8 * slots}] if slots else []
    data = data + table
    for kind in ("PROGBITS", "table", "NOBITS"):
        for section in data:
            if section["kind"] == kind:
                at = aligned(at, section["align"])
                rows.append((section, at))
                at += section["size"]
    return rows, at


def commons(path, end):
    """The names of commons with their addresses, from where the other data end."""
    rows = []
    for line in told("readelf", "-sW", path):
        if line.split()[6:7] == ["COM"]:
            _, align, size, _, _, _, _, name = line.split()
            end = aligned(end, int(align, 16))
            rows.append((name, end))
            end += int(size, 0)
    return rows


def linked(path, rows, end, folder):
    """The path of the linked program."""
    lines = ["  .text 0x%x : { *(.text) }" % CODE_START]
    lines += ["  %s 0x%x : { *(%s) }" % (section["name"], first(section, at), section["name"]) for section, at in rows]
    lines += ["  %s = 0x%x;" % row for row in commons(path, end)]
    lines += ["  /DISCARD/ : { *(.riscv.attributes) *(.note.GNU-stack) }"]
    script, made = os.path.join(folder, "script"), os.path.join(folder, "linked")
    with open(script, "w") as out:
        out.write("SECTIONS {\n%s\n}\n" % "\n".join(lines))
    linker = ["ld.lld"] if any(section["kind"] == "table" for section, _ in rows) else [PREFIX + "ld", "--no-relax"]
    subprocess.run([*linker, "-e", "0", "-T", script, path, "-o", made], check=True)
    return made


def first(section, at):
    """Where the linker's section begins: its table has a slot of its own in front."""
    return at - 8 if section["kind"] == "table" else at


def content(made, name, folder):
    out = os.path.join(folder, "content")
    subprocess.run([PREFIX + "objcopy", "-O", "binary", "--only-section", name, made, out], check=True)
    with open(out, "rb") as file:
        return file.read()


def linked_of(path):
    """What GNU ld makes of an object with one section of code, without relaxation: the offset and the word of each instruction whose
    immediate comes from a relocation, and initialised data. Of one with a table of addresses it is what lld makes, which has slots in the
    order of symbols, which has to be the order of their first uses; its table has one slot more, in front. The script says where the
    sections of data stand."""
    sections, _, relocations = tables(path)
    kept = kept_of(sections)
    slots = slots_of(use for section in kept if "X" in section["flags"] for use in relocations.get(section["name"], []))
    rows, end = placed([s for s in kept if "X" not in s["flags"]], slots)
    with tempfile.TemporaryDirectory() as folder:
        made = linked(path, rows, end, folder)
        code = content(made, ".text", folder)
        data = bytearray()
        for section, at in rows:
            if section["kind"] != "NOBITS" and section["size"]:
                data += bytes(at - DATA_START - len(data)) + content(made, section["name"], folder)[at - first(section, at) :]
    offsets = sorted({u[0] for u in relocations[".text"] if u[2] in PATCHES})
    text = ["%d %x" % (offset, int.from_bytes(code[offset : offset + 4], "little")) for offset in offsets]
    return text + ["data " + data.hex()]
