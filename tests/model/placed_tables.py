#!/usr/bin/env python3
"""Prints the tables of crates/test_source/src/placed.rt: `python3 tests/model/placed_tables.py [--check] [NAME ..]`.

Each row is an object of forms.py, a map of it, and what the model of maps.py beside this file tells: how the program ends, or the first
line that is wrong. The maps are that of hardening, that with each store behind a mask of its own, each of these with one store's
size changed, the one in which every store that follows another one has the size of its word, some in which a store has a size that
none has, and some drawn ones.
"""

import random
import sys
from pathlib import Path

sys.dont_write_bytecode = True
sys.path.insert(0, str(Path(__file__).resolve().parents[2]))

from tests.model.forms import STORING
from tests.model.hardener import Hardening, Source, small_object
from tests.model.maps import Maps, ended
from tests.shared import tables
from tests.shared.units import UNITS

DIGITS = "0123456789abcdefghijklmnopqrstuvwxyz"
DRAWN, FEW, SOME = 6, 20, (0, 1, 15, 16, 17, 18, 33, 34, 50)  # of an object with many stores only some are changed
HEADS = {"plain": "PLAIN", "harts": "HARTS", "split": "SPLIT"}
OFTEN = "LED_INNER"  # whose sizes are others in the other forms


def sizes_of(made, stores):
    """The sizes of the places, where the stores' units have these."""
    gates = made.layout.gates
    sizes = [after - gate for gate, after in zip(gates, gates[1:])]
    for k, size in stores.items():
        sizes[k] = made.layout.words[k] - gates[k] + size
    return sizes


def choices(made, rng):
    """The sizes of the stores' units in each map."""
    stores = [k for k, item in enumerate(made.source.items) if item.kind == "store"]
    greedy = {k: 16 if k in made.layout.group else 4 for k in stores}
    alone, joined = {k: 16 for k in stores}, {k: 4 if k - 1 in stores else 16 for k in stores}
    some = stores if len(stores) < FEW else [stores[j] for j in SOME]
    yield from (greedy, alone, joined)
    for k in some:
        yield greedy | {k: 20 - greedy[k]}
        yield alone | {k: 4}
    for size in (8, 12, 20):
        yield greedy | {rng.choice(stores): size}
    for _ in range(DRAWN):
        drawn = {k: 16 if rng.random() < 0.3 else joined[k] for k in stores}
        yield {k: drawn[k] if rng.random() < 0.9 else greedy[k] for k in stores}


def made_of(row, form):
    return Hardening(Source(small_object(row)), row.entry, form, row.policy_text())


def told(made, row, sizes):
    """What is told of a map with these sizes."""
    entry = made.source.named(row.entry)
    maps = Maps(made.source, made.flow, made.source.index[entry.section, entry.value])
    gates = [UNITS[made.form.image]]
    for size in sizes:
        gates.append(gates[-1] + size)
    line = maps.wrong_line(gates[0], [(gate, *item.place) for gate, item in zip(gates, made.source.items)])
    return ended(made) if line is None else "line %d" % line


def rows(form):
    rng, seen = random.Random(56), set()
    for number, row in enumerate(STORING):
        made = made_of(row, form)
        for stores in choices(made, rng) if form == "plain" or row.name == OFTEN else []:
            sizes = sizes_of(made, stores)
            digits = "".join(DIGITS[size // 4] for size in sizes)
            if (number, digits) not in seen:
                seen.add((number, digits))
                yield "%d %s %s" % (number, digits, told(made, row, sizes))


def table(form):
    lines = list(rows(form))
    if form == "split" and lines != list(rows("harts-split")):
        sys.exit("the two forms with labels of their own differ")
    return tables.text("static " + HEADS[form], lines) + "\n%s, %d)" % (HEADS[form], len(lines))


TABLES = {form: ("test_source/src/placed.rt", lambda form=form: table(form)) for form in HEADS}


if __name__ == "__main__":
    sys.exit(tables.main(__doc__, TABLES))
