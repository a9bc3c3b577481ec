#!/usr/bin/env python3
"""What several objects are as one program, for crates/test_link and crates/sample_links:
`python3 tests/objects/make_links.py [--check] [NAME ..]`. Each module is made otherwise:

    rows      objects by their texts, which stand in the module. What is told of them is by the model of tests/model; the refusals
              that the model does not have were written by hand, and are kept
    orders    objects that define one name in all ways: which of them defines it, by the data that GNU ld links, and where data end
    worked    two programs in each form of hardening: the words of their units, their data, their graphs and their maps by the
              model, their runs by the model of the machine
    samples   the objects of compilers in the folder links: length and FNV-1a hash (64 bits) of the image, the graph and the map of
              three as one program. The model makes image and graph of what `ld -r` joins, with its sections of code kept apart, and
              of the three by themselves, and they have to be the same; the exit is that of qemu
"""

import itertools
import os
import re
import subprocess
import sys
import tempfile
from pathlib import Path

sys.dont_write_bytecode = True
sys.path.insert(0, str(Path(__file__).resolve().parents[2]))

from tests.model import small_objects
from tests.model.forms import FORMS
from tests.model.hardener import Hardening
from tests.model.object_texts import Text, files_of, joined, numbers, told
from tests.shared import tables
from tests.shared.paths import CRATES
from tests.shared.units import UNITS
from tools.simulator.runs import Run, Script

HERE = Path(__file__).resolve().parent
GNU, ENTRY, CODE, WIDTH = "riscv64-linux-gnu-", "main", 0x40000000, 112
BY_HAND = ("Undecodable", "ReservedRegister", "BadTransfer", "BadPair", "RelocKind", "RelocPlace", "BadCodePointer", "Policy",
           "RelocRange")
FORM = {"plain": "Plain", "harts": "Harts", "split": "Split", "harts-split": "HartsSplit"}
HEAD = re.compile(r"/// ([^\n]*)\n#\[rattlefmt::skip\]\npub\(crate\) static (\w+): &\[u8\] = b\"(.*?)\";", re.S)


def tool(*words):
    return subprocess.run(words, check=True, capture_output=True).stdout


def wrapped(row):
    """The lines of a row: cut behind a mark, or behind a blank, which the line keeps."""
    lines, line = [], ""
    for part in re.findall(r"[^|/; ]*[|/; ]?", row):
        if len(line) + len(part) > WIDTH:
            lines, line = lines + [line], ""
        line += part
    return ["    %s\\" % each for each in lines + [line]]


def table(name, comment, rows):
    """A table of texts, as a module has it."""
    lines = [line for row in rows for line in wrapped(row + "\\n")]
    head = ["/// " + comment, "#[rattlefmt::skip]", 'pub(crate) static %s: &[u8] = b"\\' % name]
    return head + lines[:-1] + [lines[-1][:-1] + '";', ""]


# The rows: texts with a name each.

def known():
    """The tables of rows.rt: each one's name, the comment, and its rows."""
    for comment, name, text in HEAD.findall((CRATES / "test_link" / "src" / "rows.rt").read_text()):
        yield name, comment, re.sub(r"\\\n *", "", text).replace("\\n", "\n").split("\n")[:-1]


def told_again(row):
    name, texts, asked, words = row.split("|")
    return row if words.startswith(BY_HAND) else "|".join((name, texts, asked, told(files_of(texts), asked)))


def rows_module():
    text = (CRATES / "test_link" / "src" / "rows.rt").read_text()
    lines = [line for name, comment, rows in known() for line in table(name, comment, [told_again(row) for row in rows])]
    return text[:text.index("\n///") + 1] + "\n".join(lines)


# Which symbol defines a name, by GNU ld.

READER = "code,4,00008067 data,8,0.0;main,GLOBAL,FUNC,1,0,4 x,GLOBAL,NOTYPE,0,0,0;2,0,64,x,0"
SORTS = {
    "strong": "data,8,1.0;x,GLOBAL,OBJECT,1,0,8;", "weak": "data,8,2.0;x,WEAK,OBJECT,1,0,8;",
    "second": "data,8,3.0;x,WEAK,OBJECT,1,0,8;", "common": ";x,GLOBAL,OBJECT,COMMON,64,8;",
    "larger": ";x,GLOBAL,OBJECT,COMMON,8,24;", "number": ";x,GLOBAL,NOTYPE,ABS,20480,0;", "faint": ";x,WEAK,NOTYPE,ABS,24576,0;",
    "used": ";x,GLOBAL,NOTYPE,0,0,0;", "wanted": ";x,WEAK,NOTYPE,0,0,0;"}
SCRIPT = """SECTIONS {
    .text 0x40000040 : { *(.text) }
    .data 0x10000 : { *(.data) }
    .bss : { *(COMMON) }
}
"""


def written(path, content):
    with open(path, "wb") as file:
        file.write(content)
    return path


def linked(texts):
    """What GNU ld makes of objects: their data, and where these end; or what stands against it."""
    with tempfile.TemporaryDirectory() as folder:
        inside = lambda name: os.path.join(folder, name)
        paths = [written(inside("%d.o" % k), Text(text).file()) for k, text in enumerate(texts)]
        script, made, content = written(inside("script"), SCRIPT.encode()), inside("made"), inside("content")
        linker = [GNU + "ld", "--no-relax", "-e", "0", "-T", script, "-o", made, *paths]
        done = subprocess.run(linker, capture_output=True, text=True)
        if done.returncode:
            return refused(done.stderr)
        tool(GNU + "objcopy", "-O", "binary", "--only-section", ".data", made, content)
        data = Path(content).read_bytes()
        return "data %d%s, end %x" % (len(data), numbers(data), end_of(made))


def refused(said):
    """What a linker says against objects; the pointer's object is the first, and `x` its second symbol."""
    if "multiple definition of `x'" in said:
        return "Duplicate x"
    assert "undefined reference to `x'" in said, said
    return "Undefined 2 in 1"


def end_of(made):
    """Where the data of a linked program end."""
    rows = re.findall(r"\.(?:data|bss) +\w+ +([0-9a-f]{16}) [0-9a-f]+ ([0-9a-f]+)", tool(GNU + "readelf", "-SW", made).decode())
    return max(int(at, 16) + int(size, 16) for at, size in rows)


THREES = [("weak", "second", "common"), ("weak", "common", "larger"), ("faint", "weak", "larger"), ("strong", "weak", "common")]


def orders():
    """One object, any two that define the name, and some three of them. To the linker two numbers that are equal are one."""
    yield from ((sort,) for sort in SORTS)
    yield from (pair for pair in itertools.product(list(SORTS)[:-2], repeat=2) if pair != ("number", "number"))
    for three in THREES:
        yield from itertools.permutations(three)


def order_row(sorts):
    """A row of the linker's, which the model has to agree to."""
    texts = [READER] + [SORTS[sort] for sort in sorts]
    words = linked(texts)
    assert told(files_of("/".join(texts)), ENTRY).replace("enter 40000040, ", "") == words, (sorts, words)
    return "%s|%s" % (" ".join(sorts), words)


def filled(rows):
    """Rows in lines, as many in one as there is room for."""
    lines, line = [], ""
    for row in rows:
        if len(line) + len(row) + 2 > WIDTH:
            lines, line = lines + [line], ""
        line += row + "\\n"
    return ["    %s\\" % each for each in lines] + ['    %s";' % line]


def orders_module():
    return "\n".join([
        "//! Which symbol defines a name where several objects have it, as GNU ld 2.40 links them; tests/objects/make_links.py at",
        "//! the top of the repository prints this.", "",
        "/// An object with a pointer to `x`, which stands before the others.",
        "pub(crate) const READER: &str =", '    "%s";' % READER, "",
        *table("SORTS", "The sorts of objects that define, or name, `x`: one a line.", ["%s|%s" % row for row in SORTS.items()]),
        "/// Sorts of objects in an order, and what is linked of them: data, whose first number is the pointer, and where they end.",
        "#[rattlefmt::skip]", 'pub(crate) static ORDERS: &[u8] = b"\\', *filled(order_row(sorts) for sorts in orders()), ""])


# Programs in each form.

PAIR = ("code,4,ff010113.00113423.00000097.000080e7.00813083.01010113.00008067;main,GLOBAL,FUNC,1,0,28 f,GLOBAL,NOTYPE,0,0,0;"
        "1,8,CALL_PLT,f,0/code,4,00300513.00008067;f,GLOBAL,FUNC,1,0,8;")


def run_of(hardening):
    """How many steps a run has, how long its walk is, and its exit."""
    run = Run(hardening.built, Script(), b"", 100000)
    assert run.stop[0] == "exit"
    return run.steps, len(run.walks[0]), run.stop[1]


class Constants:
    """Constants, each content once."""

    def __init__(self):
        self.lines, self.names = [], {}

    def name(self, wanted, content, lines):
        key = (lines, tuple(content) if isinstance(content, list) else content)
        if key not in self.names:
            self.names[key] = wanted
            self.lines += lines(wanted, content)
        return self.names[key]


def table_lines(name, words):
    """A table of words, as a module has it."""
    return ["/// The units of `%s`." % name, "#[rattlefmt::skip]", *tables.words("pub const " + name, words).split("\n")]


def text_lines(name, content):
    """A text, of a map three lines in one."""
    lines = [line + "\\n" for line in content.split("\n")[:-1]]
    places = [line for line in lines if line.startswith("at ")]
    rows = ["".join(places[k:k + 3]) for k in range(0, len(places), 3)] + [line for line in lines[1:] if line not in places]
    return ["#[rattlefmt::skip]", 'pub(crate) const %s: &[u8] = b"%s\\' % (name, lines[0]),
            *("    %s\\" % row for row in rows[:-1]), '    %s";' % rows[-1], ""]


def worked_row(constants, which, form, whole):
    """A program in a form. The call of its entry is the third word before the units."""
    made, name = Hardening(whole, ENTRY, form), "%s_%s" % (which.upper(), form.upper().replace("-", "_"))
    first = (UNITS[made.form.image] - CODE) // 4
    words = constants.name(name, made.built.words[first:], table_lines)
    graph = constants.name(name + "_GRAPH", made.graph.decode(), text_lines)
    places = constants.name(name + "_MAP", made.map.decode(), text_lines)
    data = "".join("\\x%02x" % byte for byte in made.built.data)
    return '    Worked(\n        Form::%s, Objects::%s, &%s, 0x%08x,\n        b"%s", %s, %s, Run(%d, %d, %d),\n    ),' % (
        FORM[form], which, words, made.built.words[first - 3], data, graph, places, *run_of(made))


def worked_module():
    constants = Constants()
    rows = [worked_row(constants, which, form, joined(files))
            for which, files in (("Pair", files_of(PAIR)), ("Table", [small_objects.T.file()])) for form in FORMS]
    texts = wrapped(PAIR)
    return "\n".join([
        "//! Objects as one program in each form of hardening: the words of their units, their data, their graphs and their maps,",
        "//! as tests/objects/make_links.py at the top of the repository prints them.", "",
        "use crate::given::Objects;", "use rv_image::Form;", "",
        "/// How a run by one hart ends: its steps, the length of its walk and its exit.",
        "#[derive(Clone, Copy)]", "pub struct Run(pub u64, pub u64, pub u8);", "",
        "/// What objects become: the form, the objects, the words of the units, the call of the entry in the prologue, the data,",
        "/// the graph and the map, and a run.",
        "pub struct Worked(", "    pub Form,", "    pub Objects,", "    pub &'static [u32],", "    pub u32,",
        *["    pub &'static [u8],"] * 3, "    pub Run,", ");", "",
        "/// The texts of the two objects of the pair.",
        'pub(crate) const PAIR: &str = "\\', *texts[:-1], texts[-1][:-1] + '";', "",
        *constants.lines,
        "/// Programs in each form.", "#[rattlefmt::skip]", "pub static WORKED: [Worked; %d] = [" % len(rows), *rows, "];", ""])


# Objects of compilers.

COMPILED = {"Gcc": ["first", "second", "third"], "Clang": ["first_clang", "second_clang", "third_clang"]}
START = b".globl _start\n_start:\ncall main\nli a7,93\necall\n"


def path_of(name):
    return str(HERE / "links" / (name + ".o"))


def exit_of(paths):
    """The exit of the program that GNU ld links, under qemu."""
    with tempfile.TemporaryDirectory() as folder:
        start, program = os.path.join(folder, "start.o"), os.path.join(folder, "program")
        assembler = [GNU + "gcc", "-march=rv64i", "-mabi=lp64", "-c", "-x", "assembler", "-", "-o", start]
        subprocess.run(assembler, input=START, check=True)
        tool(GNU + "ld", "-o", program, start, *paths)
        return subprocess.run(["qemu-riscv64", program]).returncode


def joined_by_ld(paths):
    """What `ld -r` makes of objects, with each section of code by itself."""
    with tempfile.TemporaryDirectory() as folder:
        made = os.path.join(folder, "made.o")
        tool(GNU + "ld", "-r", "--unique=.text", "-o", made, *paths)
        return joined([Path(made).read_bytes()])


def hashed(content):
    digits = "%016x" % tables.fnv(content)
    return "Sum(%d, 0x%s)" % (len(content), "_".join(digits[k:k + 4] for k in range(0, 16, 4)))


def sum_row(which, form, paths):
    """Three objects in a form."""
    wholes = joined_by_ld(paths), joined([Path(path).read_bytes() for path in paths])
    by_ld, by_itself = (Hardening(whole, ENTRY, form) for whole in wholes)
    assert (by_ld.image, by_ld.graph) == (by_itself.image, by_itself.graph)
    run = run_of(by_itself)
    assert run[2] == exit_of(paths)
    sums = ", ".join(hashed(each) for each in (by_ld.image, by_ld.graph, by_itself.map))
    return "    Sums(\n        Form::%s, Objects::%s,\n        %s, Run(%d, %d, %d),\n    )," % (FORM[form], which, sums, *run)


def samples_module():
    objects = [tables.hexadecimal("pub(crate) static " + name.upper(), Path(path_of(name)).read_bytes())
               for names in COMPILED.values() for name in names]
    rows = [sum_row(which, form, [path_of(name) for name in names]) for which, names in COMPILED.items() for form in FORMS]
    return "\n".join([
        "//! Three objects of gcc 12.2, the first two of them with a table of addresses, and three of clang 16.0, of the sources",
        "//! in tests/objects/links at the top of the repository, in hexadecimal, and what each three become in each form of",
        "//! hardening, as tests/objects/make_links.py prints it: image and graph are those of what `ld -r` makes of them.", "",
        "use crate::given::Objects;", "use crate::worked::Run;", "use rv_image::Form;", "", *objects,
        "/// How many bytes a file has, and their hash.", "#[derive(Clone, Copy)]", "pub struct Sum(pub usize, pub u64);", "",
        "/// What objects become: the form, the objects, the image, the graph, the map and a run.", 
        "pub struct Sums(pub Form, pub Objects, pub Sum, pub Sum, pub Sum, pub Run);", "",
        "/// Objects of compilers in each form.", "#[rattlefmt::skip]",
        "pub static SUMS: [Sums; %d] = [" % len(rows), *rows, "];", ""])


TABLES = {"rows": ("test_link/src/rows.rt", rows_module), "orders": ("test_link/src/orders.rt", orders_module),
          "worked": ("sample_links/src/worked.rt", worked_module), "samples": ("sample_links/src/samples.rt", samples_module)}

if __name__ == "__main__":
    sys.exit(tables.main(__doc__, TABLES))
