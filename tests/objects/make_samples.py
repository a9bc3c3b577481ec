#!/usr/bin/env python3
"""Prints objects as statics of crates/: `python3 tests/objects/make_samples.py [--check] [NAME ..]`.

Those by hand, of tests/model/small_objects.py, some of which have the program that they are; and those of compilers, which
make_objects.sh made, with what binutils and lld say of them (binutils.py).
"""

import sys
from pathlib import Path

sys.dont_write_bytecode = True
sys.path.insert(0, str(Path(__file__).resolve().parents[2]))

from tests.model.small_objects import APART, B, H, LED, P, PATCHED, Q, R, SORTS, T, TABLE
from tests.objects.binutils import linked_of, program_of, text_of
from tests.shared import tables

HERE = Path(__file__).resolve().parent
BY_HAND = {"lib": (B, P, H, R, T), "pointers": (Q, APART, SORTS, TABLE), "stores": (LED, PATCHED)}  # by the files of sample_objects
TOLD = "differences switch_medlow addressing_clang switch_clang pointers_clang strings_clang".split()
LINKED = "switch_medlow switch_clang pointers_clang menu tree spans shared slots entries".split()
BY_USES = ["order"]  # whose table of addresses no linker makes so


def by_hand(objects):
    return "\n".join(tables.hexadecimal("static " + each.name, each.file()) for each in objects)


def compiled(name):
    path = str(HERE / (name + ".o"))
    found = [tables.hexadecimal("static " + name.upper(), Path(path).read_bytes())]
    found += [tables.text("static %s_PROGRAM" % name.upper(), program_of(path))]
    found += [tables.text("static %s_TEXT" % name.upper(), text_of(path))] if name in TOLD else []
    found += [tables.text("static %s_LINKED" % name.upper(), linked_of(path))] if name in LINKED else []
    return "\n".join(found)


TABLES = {file: ("sample_objects/src/%s.rt" % file, lambda objects=objects: by_hand(objects)) for file, objects in BY_HAND.items()}
TABLES["programs"] = "test_program/src/vectors.rt", lambda: "\n".join(
    tables.text("static %s_TEXT" % each.name, each.program()) for each in BY_HAND["lib"])
TABLES |= {name: ("test_program/src/samples.rt", lambda name=name: compiled(name)) for name in dict.fromkeys(TOLD + LINKED + BY_USES)}

if __name__ == "__main__":
    sys.exit(tables.main(__doc__, TABLES))
