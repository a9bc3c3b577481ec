#!/usr/bin/env python3
"""Prints the objects and the table of crates/test_lists/src/links.rt: `python3 tests/model/links_table.py [--check] [NAME ..]`.

The objects are written down here; what they are joined to, hardened, and its runs are what the models beside this file give.
"""

import sys
from pathlib import Path

sys.dont_write_bytecode = True
sys.path.insert(0, str(Path(__file__).resolve().parents[2]))

from tests.model.forms import FORMS
from tests.model.hardener import Hardening, Source
from tests.model.joiner import Joined
from tests.model.small_objects import CALL_PLT, FUNC, NOTYPE, SECTION, T, Object
from tests.shared import tables
from tests.shared.instructions import RETURN, addi, auipc, jalr, ld, sd
from tools.simulator.runs import answer

MAIN = Object(
    "MAIN",
    [([addi(2, 2, -16)], "plain", ""), ([sd(1, 2, 8)], "store", ""), ([auipc(1, 0), jalr(1, 1)], "call", ""),
     ([ld(1, 2, 8)], "plain", ""), ([addi(2, 2, 16)], "plain", ""), ([RETURN], "return", "")],
    [("main", FUNC, 1, 0, 28), ("f", NOTYPE, 0, 0, 0)], [(8, CALL_PLT, "f")])
RETURNS = [([addi(10, 0, 3)], "plain", ""), ([RETURN], "return", "")]
F = Object("F", RETURNS, [("f", FUNC, 1, 0, 8)], [])
# One ends with two stores, and the other one begins with two; no mask stands for those of both.
ENDS = Object(
    "ENDS",
    [([addi(2, 2, -16)], "plain", ""), ([sd(1, 2, 8)], "store", ""), ([sd(8, 2, 0)], "store", ""),
     ([auipc(1, 0), jalr(1, 1)], "call", ""), ([ld(8, 2, 0)], "plain", ""), ([ld(1, 2, 8)], "plain", ""), ([addi(2, 2, 16)], "plain", ""),
     ([RETURN], "return", ""), ([sd(6, 2, 0)], "store", ""), ([sd(6, 2, 8)], "store", "")],
    [("main", FUNC, 1, 0, 36), ("f", NOTYPE, 0, 0, 0)], [(12, CALL_PLT, "f")])
BEGINS = Object("BEGINS", [([sd(7, 2, 0)], "store", ""), ([sd(7, 2, 8)], "store", "")] + RETURNS, [("f", FUNC, 1, 8, 8)], [])
ODD = Object("ODD", RETURNS, [("\xff\xfe", FUNC, 1, 0, 8)], [])
QUIET = Object("QUIET", RETURNS, [("", SECTION, 1, 0, 0)], [])
FILES = {"main.o": MAIN, "f.o": F, "quiet.o": QUIET, "t.o": T, "ends.o": ENDS, "begins.o": BEGINS}
LINKS = [["main.o", "f.o"], ["f.o", "main.o"], ["main.o", "quiet.o", "f.o"], ["main.o", "t.o"], ["t.o"], ["t.o", "quiet.o"], ["main.o", "f.o", "f.o"],
         ["main.o"], ["quiet.o", "main.o"], ["quiet.o", "t.o", "t.o"], ["ends.o", "begins.o"], ["begins.o", "ends.o"]]


def sources(names):
    return [Source(FILES[name].file()) for name in names]


def refusal(parts):
    """The line of a link that is refused, or None."""
    whole = Joined(parts)
    name, missing = whole.duplicate(), whole.undefined([len(part.symbols) for part in parts])
    if name:
        return "refused 27 Duplicate %s\\n" % name
    return "refused 15 Undefined %d in %d\\n" % missing if missing else None


def rows(names, form):
    """The rows of a link: what it puts, that it is accepted, its run, and that nothing differs."""
    objects = ",".join(names)
    line = refusal(sources(names))
    if line:
        yield "rvcfi,link,%s,main,none,image,graph,map,%s = 1: %s" % (form, objects, line)
        return
    made = Hardening(Joined(sources(names)), "main", form)
    status, report = answer(made.built, None, b"", 1000)
    yield "rvcfi,link,%s,main,none,image,graph,map,%s = 0: %s" % (form, objects, made.told().decode().replace("\n", "\\n"))
    yield "rvcfi,verify,image,graph = 0: accepted\\n"
    yield "rvcfi,run,image,graph,none,none,1000 = %d: %s" % (status, report.decode().replace("\n", "\\n"))
    yield "rvcfi,compare-link,main,none,image,map,none,1000,%s = 0: same 1\\n" % objects


def constants():
    found = [tables.hexadecimal("const " + each.name, each.file()) for each in (MAIN, F, QUIET, ENDS, BEGINS)]
    return "\n".join([*found, tables.hexadecimal("const ODD", ODD.file().replace("\xff\xfe".encode(), b"\xff\xfe\0\0"))])


def table():
    found = [row for form in FORMS for names in LINKS for row in rows(names, form)]
    return tables.lines("static LINKS", found) + "\nfirst_wrong(rt.alloc(), &mut files, LINKS, %d)" % len(found)


TABLES = {name: ("test_lists/src/links.rt", make) for name, make in {"objects": constants, "links": table}.items()}


if __name__ == "__main__":
    sys.exit(tables.main(__doc__, TABLES))
