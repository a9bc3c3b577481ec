#!/usr/bin/env python3
"""Prints the tables of lists of system calls: `python3 tests/model/lists_tables.py [--check] [NAME ..]`.

`lines` is crates/test_lists/src/lists.rt, objects and command lines; `pairs` is crates/test_hostile/src/lists.rt, images and graphs;
`placed` is crates/test_source/src/listed.rt, maps. All that is told comes from the models beside this file.
"""

import struct
import sys
from pathlib import Path
from typing import NamedTuple

sys.dont_write_bytecode = True
sys.path.insert(0, str(Path(__file__).resolve().parents[2]))

from tests.model.forms import AROUND, ASKING, ENDING, FORMS, LISTING, MOST, MUL_17, RETURN, coded, stored
from tests.model.hardener import Hardening, Source, small_object
from tests.model.joiner import Joined
from tests.model.links_table import MAIN
from tests.model.maps import is_unlisted
from tests.model.placed_tables import DIGITS, made_of, sizes_of, told as told_of_map
from tests.model.program import IMAGE_VERSIONS, Program
from tests.model.rules import verdict
from tests.model.small_objects import FUNC, Object
from tests.shared import tables
from tests.shared.instructions import ECALL, SD, addi, beq, jump, lui
from tests.shared.texts import policy_text
from tests.shared.units import CODE, UNITS
from tools.simulator.machine import Machine
from tools.simulator.runs import answer

LIMIT = 1000


class Small(NamedTuple):
    """An object as a row of forms.py has it."""
    object: str


# Reads by twos and writes what it reads, up to the input's end.
ECHO = coded(
    addi(10, 0, 0), lui(11, 16), addi(12, 0, 2), addi(17, 0, 63), ECALL, beq(10, 0, 24), addi(12, 10, 0), addi(10, 0, 1),
    addi(17, 0, 64), ECALL, jump(0, -40), RETURN)
# Stores behind one mask what it then writes.
STORED = coded(
    lui(11, 16), addi(5, 0, 0x61), *stored(11, (0, 5, 1), (0, 5, 0), (0, 5, 2)), addi(10, 0, 1), addi(12, 0, 3), addi(17, 0, 64), ECALL,
    *stored(11, (SD, 5, 8), (SD, 5, 16)), addi(10, 0, 4), RETURN)
OBJECTS = {"h.o": 'Writing, 0, b""', "asking.o": ASKING, "ending.o": ENDING, "around.o": AROUND, "echo.o": ECHO, "stored.o": STORED,
           "product.o": coded(addi(5, 0, 9), addi(6, 0, 7), MUL_17, ECALL, RETURN)}
WRITES = Object("WRITES", [([word], "", "") for word in (addi(17, 0, 64), ECALL, RETURN)], [("f", FUNC, 1, 0, 12)], [])
EXITS = Object("EXITS", [([word], "", "") for word in (addi(10, 0, 5), addi(17, 0, 93), ECALL)], [("f", FUNC, 1, 0, 12)], [])
LINKED = {"main.o": MAIN, "writes.o": WRITES, "exits.o": EXITS}
POLICIES = {"c0": (0,), "c63": (63,), "c64": (64,), "c93": (93,), "c94": (94,), "c2047": (2047,), "c63_64": (63, 64), "most": MOST}
INPUT = b"abcde"
# the objects, the policy, and the numbers that stand at 10000h at the start
RUNS = [
    (["h.o"], "c64", []), (["h.o"], "c63", []), (["h.o"], "most", []),
    (["asking.o"], "c64", [0x5D, 0x40, 0x10000000000000040]), (["asking.o"], "c0", [0, 2048]), (["asking.o"], "c2047", [2047, 2048, 2046]),
    (["asking.o"], "c93", [0x5D, 0x5E]), (["asking.o"], "most", [*MOST, 2, 0xFFFFFFFFFFFFFFFF]),
    (["ending.o"], "c94", []), (["ending.o"], "c93", []), (["around.o"], "c64", []), (["around.o"], "c63", []),
    (["product.o"], "c63", []), (["product.o"], "c64", []),
    (["echo.o"], "c63_64", []), (["echo.o"], "c63", []), (["echo.o"], "c64", []), (["stored.o"], "c64", []), (["stored.o"], "c2047", []),
    (["main.o", "writes.o"], "c64", []), (["writes.o", "main.o"], "most", []), (["main.o", "exits.o"], "c64", []),
    (["main.o", "exits.o"], "c93", []),
]


def source_of(name):
    return Source(LINKED[name].file() if name in LINKED else small_object(Small(OBJECTS[name])))


def hardening(names, form, policy):
    source = source_of(names[0]) if len(names) == 1 else Joined([source_of(name) for name in names])
    return Hardening(source, "main", form, policy_text(POLICIES[policy]))


def compared(made, given):
    """The status and the text of comparing an object with its own image: the only reason here is `call`."""
    machine, calls = Machine(made.built.version, made.built.code, made.built.data, given, 1), 0
    words, stop = {at: k for k, at in enumerate(made.layout.words)}, None
    while not stop:
        pc = machine.pcs[0]
        if pc in words:
            item = made.source.items[words[pc]]
            if is_unlisted(item.word, machine.registers[0], made.flow.calls):
                return 13, "untame call %d %d" % item.place
        calls += machine.read(pc, 4) == ECALL
        stop = machine.step(0)
    assert stop[0] == "exit"
    return 0, "same %d" % calls


def script(number):
    return "rvcfi-script 1\nat 0 00010000 %s\nend\n" % struct.pack("<Q", number % 2**64).hex()


def row(words, status, text):
    return "    rvcfi,%s = %d: %s;\\" % (",".join(words), status, text.replace("\n", "\\n"))


def lines_of(names, policy, numbers, form, scripts):
    """The command lines of one program: it is hardened, accepted, run and compared."""
    made = hardening(names, form, policy)
    head = ["harden", form, *names, "main", policy] if len(names) == 1 else ["link", form, "main", policy]
    yield row([*head, "i", "g", "m", *(names if len(names) > 1 else [])], 0, made.told().decode())
    yield row(["verify", "i", "g"], 0, "accepted\n")
    for number in numbers or [None]:
        text = None if number is None else script(number)
        name = "none" if text is None else scripts.setdefault(text, "s%d" % len(scripts))
        status, report = answer(made.built, text and text.encode(), INPUT, LIMIT)
        yield row(["run", "i", "g", name, "input", str(LIMIT)], status, report.decode())
    status, text = compared(made, INPUT)
    if len(names) == 1:
        yield row(["compare", *names, "main", policy, "i", "m", "input", str(LIMIT)], status, text + "\n")
    else:
        yield row(["compare-link", "main", policy, "i", "m", "input", str(LIMIT), *names], status, text + "\n")


def texts(scripts):
    """The policies, the scripts and the input as rows of a table."""
    rows = [(name, policy_text(calls)) for name, calls in POLICIES.items()] + [(name, text) for text, name in scripts.items()]
    for name, text in [*rows, ("input", INPUT.decode())]:
        yield '    ("%s", b"%s"),' % (name, text.replace("\n", "\\n"))


LINES = """\
//! Objects that are hardened under lists of system calls, in each form: what is put, that it is accepted, its runs and what comparing
//! tells. tests/model/lists_tables.py at the top of the repository prints this, by its models of the join, of hardening and of the machine.

use crate::links::MAIN;
use rv_word::NoMemory;
use sample_calls::{Given, Source, add_object, add_texts, decoded, first_wrong};
use std::alloc::Global;
use tool_io::MemFiles;

%s
/// Objects by their names; some load the number of their system call from data, read and write, or store what they write.
#[rattlefmt::skip]
static OBJECTS: [(&str, Given); %d] = [
%s
];

/// Objects that are joined.
static JOINED: [(&str, &[u8]); %d] = [%s];

/// Policies, scripts that change the number of a system call, and an input.
#[rattlefmt::skip]
static TEXTS: [(&str, &[u8]); %d] = [
%s
];

/// Command lines, with the status and the text of each.
const LINES: &[u8] = b"\\
%s

/// Adds the objects and the texts.
fn add_all(alloc: Global, files: &mut MemFiles) -> Result<(), NoMemory> {
    for object in &OBJECTS {
        add_object(alloc, files, object.0, &object.1)?;
    }
    for object in &JOINED {
        files.insert(object.0, &decoded(alloc, object.1)?)?;
    }
    add_texts(files, &TEXTS)
}

#[test]
fn lists(rt: HostRuntime) {
    let mut files = MemFiles::new(rt.alloc(), Vec::new(rt.alloc()));
    assert!(rt; add_all(rt.alloc(), &mut files).is_ok());
    assert_eq!(rt; first_wrong(rt.alloc(), &mut files, LINES, %d), None);
}
"""


def lines():
    scripts = {}
    found = [line for names, policy, numbers in RUNS for form in FORMS for line in lines_of(names, policy, numbers, form, scripts)]
    given = ['    ("%s", Given(Source::%s)),' % (name, text) for name, text in OBJECTS.items()]
    names = ['("%s", %s)' % (name, each.name) for name, each in LINKED.items()]
    rows = list(texts(scripts))
    return LINES % ("\n".join(tables.hexadecimal("const " + each.name, each.file()) for each in (WRITES, EXITS)), len(given),
                    "\n".join(given), len(names), ", ".join(names), len(rows), "\n".join(rows), "\n".join(found)[:-2] + '";', len(found))


NUMBERS = (64, 93)


def sending(p):
    """Writes three bytes by a guarded call, and returns; a class of one target stands before that."""
    p.label("main")
    p.gate(1)
    p.plain(addi(10, 0, 1), lui(11, 16), addi(12, 0, 3), addi(17, 0, 64))
    p.label("send")
    p.ecall()
    p.plain(addi(10, 0, 0))
    p.near(0, 10, 17, "send")
    p.returns()
    p.stop()


def program(version, calls, bare=False):
    p = Program(version, 1, calls)
    if bare:
        p.ecall = lambda: p.plain(ECALL)
    sending(p)
    return p.built("main")


def changed(built, *words):
    """A program with words changed, each by its offset."""
    own = list(built.words)
    for at, word in words:
        own[at // 4] = word
    return built._replace(words=own)


def graph_with(built, line=None, **places):
    """The graph with other lines in place of those that begin with a word, or without them."""
    found = []
    for text in built.graph.decode().split("\n"):
        first = text.split(" ")[0]
        found += places.get(first, [text]) if first in places else [text]
    return built._replace(graph="\n".join(found).encode())


def cases(version):
    """Programs whose calls are guarded, with a fault or with none: each a name, its image and its graph."""
    built = program(version, NUMBERS)
    send, base = built.labels["send"], built.labels["send"] - CODE
    word = lambda k: built.words[base // 4 + k]
    yield "accepted as it is", built
    for what, k, other in (
            ("a bare call in place of the jump", 4, ECALL), ("a number that is not listed", 0, addi(31, 0, 65)),
            ("the number of another register", 0, addi(31, 17, 64)), ("a negative number", 2, addi(31, 0, -93)),
            ("x16 is tested", 1, word(1) - (1 << 20)), ("the other condition", 1, word(1) | 1 << 12),
            ("the test goes past the call", 1, word(1) + (4 << 7)), ("the test goes to the jump", 3, word(3) - (4 << 7)),
            ("to the other handler", 4, jump(0, CODE + 4 - send - 16)), ("a jump that saves", 4, word(4) | 1 << 7),
            ("a break in place of the call", 5, 0x00100073), ("nothing in place of the call", 5, addi(0, 0, 0)),
            ("a second call", 6, ECALL), ("a call before it", -1, ECALL)):
        yield what, changed(built, (base + 4 * k, other))
    yield "the other order", changed(built, (base, addi(31, 0, 93)), (base + 8, addi(31, 0, 64)))
    for calls in ("calls 64", "calls 93", "calls 63 64 93", "calls 64 94", "calls 0 64 93", "calls 64 93 2047", "calls 0 1 2 3 4 5 6 7"):
        yield "the graph has `%s`" % calls, graph_with(built, calls=[calls])
    yield "the graph has no list", graph_with(built, calls=[])
    last = send + 20
    back = send + 28
    yield "a branch to the call", graph_with(changed(built, (back - CODE, 0x01150063 | ((last - back) & 0x1E) << 7 | 0xFE000000 | 1 << 7)),
                                             edge=["edge %08x %08x" % (back, last)])
    yield "a target at the call", graph_with(built, **{"class": ["class 00001 %08x" % last]})
    opening = UNITS[version] - 12
    yield "the opening calls the call", graph_with(changed(built, (opening - CODE, jump(1, last - opening))),
                                                   call=["call 4000000c %08x" % last])
    yield "an edge of a guarded call", graph_with(built, end=[], edge=["edge %08x %08x" % (send, send + 24), "edge %08x %08x" % (back, send), "end"])
    yield "bare calls under a list", graph_with(program(version, NUMBERS, True))
    yield "bare calls without a list", program(version, None)
    eight = program(version, MOST)
    yield "eight numbers", eight
    yield "eight numbers and one of the two", graph_with(eight, calls=["calls 0 1 62 63 64 93 94 2046"])


def name_of(built, known):
    """The name of the table that has the units of a program, and the words that are changed in it."""
    for name, words in known.items():
        changes = [(4 * k, built.words[k]) for k in range(len(words)) if len(words) == len(built.words) and words[k] != built.words[k]]
        if len(words) == len(built.words) and len(changes) <= 2:
            return name, changes
    raise AssertionError


def table(name, words, first):
    return "#[rattlefmt::skip]\n" + tables.words("const " + name, words[first:])


PAIRS = """\
//! Images whose system calls are guarded, and their graphs: what is put of each. tests/model/lists_tables.py at the top of the repository
//! prints this, by its model of the rules.

use crate::pairs::verifies;
use rv_image::ImageVersion::{EightHarts, OneHart};
use rv_image::ImageVersion;
use rv_word::NoMemory;
use sample_calls::{image_as, put};
use sample_programs::{code, code_of_harts};
use std::alloc::Global;

%s
/// The version of the image, its units, the offsets of words in its code with what is put there, the graph, and what is told.
struct Case(
    ImageVersion,
    &'static [u32],
    &'static [(usize, u32)],
    &'static [u8],
    &'static str,
);

#[rattlefmt::skip]
static CASES: [Case; %d] = [
%s
];

/// The code of a case.
fn code_of(alloc: Global, case: &Case) -> Result<Vec<u8>, NoMemory> {
    let mut bytes = match case.0 {
        OneHart => code(alloc, case.1)?,
        EightHarts => code_of_harts(alloc, case.1)?,
    };
    for change in case.2 {
        put(&mut bytes, change.0, &change.1.to_le_bytes());
    }
    Ok(bytes)
}

/// The image of a case.
fn image(alloc: Global, case: &Case) -> Result<Vec<u8>, NoMemory> {
    image_as(alloc, case.0, &code_of(alloc, case)?, b"")
}

/// Whether a case is told as it says.
fn is_right(alloc: Global, case: &Case) -> bool {
    match image(alloc, case) {
        Ok(image) => verifies(alloc, &image, case.3, case.4),
        Err(_) => false,
    }
}

#[test]
fn guarded_calls(rt: HostRuntime) {
    for (k, case) in CASES.iter().enumerate() {
        assert!(rt; is_right(rt.alloc(), case), "{k}");
    }
}
"""


def pairs():
    own, rows = [], []
    for version, end in (1, ""), (2, "_OF_HARTS"):
        of = {"GUARDED" + end: program(version, NUMBERS).words, "BARE" + end: program(version, None).words, "EIGHT" + end: program(version, MOST).words}
        own += [table(name, words, (UNITS[version] - CODE) // 4) for name, words in of.items()]
        for what, built in cases(version):
            name, changes = name_of(built, of)
            rows += ["    // %s" % what, '    Case(%s, &%s, &[%s],' % (IMAGE_VERSIONS[version], name, ", ".join("(0x%02x, 0x%08x)" % each for each in changes)),
                     '        b"%s",' % built.graph.decode().replace("\n", "\\n"),
                     '        "%s\\n"),' % verdict(built.version, built.words, built.graph)]
    return PAIRS % ("\n".join(own), len(rows) // 4, "\n".join(rows))


PLACED = """\
//! Maps of objects that are hardened under lists of system calls, each ECALL with the size of its unit or with another one; and how
//! their runs end, where each map is one of its program's. tests/model/lists_tables.py at the top of the repository prints this.

use crate::placed::first_wrong;
use sample_hardened::listed_programs;

// A line a map: an object by its number in `listed_programs`, the map, and what is told, as in `placed`.
static LINES: &[u8] = b"\\
%s

#[test]
fn places_system_calls(rt: HostRuntime) {
    assert_eq!(rt;
        first_wrong(
            rt.alloc(),
            listed_programs(),
            "rvcfi-map 1",
            0x4000_0040,
            LINES,
            %d
        ),
        ""
    );
}
"""


def sizes_with(made):
    """The sizes of places: those of hardening, and each ECALL and EBREAK with other ones."""
    right = sizes_of(made, {})
    yield right
    for k, item in enumerate(made.source.items):
        if item.kind == "system":
            for other in {4, 8, 16, right[k] - 4, right[k] + 8, 72, 80} - {right[k], 0}:
                yield right[:k] + [other] + right[k + 1:]


def placed():
    lines = []
    for number, each in enumerate(LISTING):
        made = made_of(each, "plain")
        if all(item.size in (0, 4) for item in made.source.items):
            for sizes in sizes_with(made):
                text = "".join(DIGITS[size // 4] for size in sizes)
                lines.append("    %d %s %s\\n\\" % (number, text, told_of_map(made, each, sizes)))
    return PLACED % ("\n".join(lines)[:-1] + '";', len(lines))


TABLES = {"lines": ("test_lists/src/lists.rt", lines),
          "pairs": ("test_hostile/src/lists.rt", pairs), "placed": ("test_source/src/listed.rt", placed)}


if __name__ == "__main__":
    sys.exit(tables.main(__doc__, TABLES))
