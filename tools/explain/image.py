"""The code of an image as units, with the object's functions, labels and instructions, and with where each unit goes."""

from . import units

BY_WORD = {4: ", by the second word", 8: ", by the third word"}  # how far behind its destination a check reads


def goes(named, unit):
    """Where a unit goes, in names."""
    if unit.numbers:
        more = "" if list(unit.numbers) == named.graph.numbers else ", which is not the graph's list"
        return "system calls %s%s" % (" ".join(map(str, unit.numbers)), more)
    if unit.target is not None:
        return "to %08x %s" % (unit.target, named.place(unit.target))
    if unit.kind == "gate":
        return named.graph.name(unit.label) if unit.label in named.graph.classes else "no class (%s)" % unit.label
    if unit.label is not None:
        word = BY_WORD.get(unit.past, "")
        return "%s%s: %s" % (named.graph.name(unit.label), word, named.names(named.graph.classes.get(unit.label, [])))
    return ""


def lines(named, disassembly, words):
    """A line a unit, and a heading for each function and each label. What another unit of its place follows leads that."""
    place, split = None, list(units.split(words, named.map.prologue))
    for unit, after in zip(split, [*split[1:], None]):
        here = named.map.place(unit.address)
        if here is None:
            yield "%08x  %-26s %s" % (unit.address, unit.kind, goes(named, unit))
            continue
        if here != place:
            yield from headings(named, here)
        place = here
        is_lead = after is not None and named.map.place(after.address) == here
        text = "" if is_lead or unit.kind in ("gate", "stop") else disassembly.text(here, named.read.word_at(here))
        text = "over the enter" if is_lead and unit.kind == "jump" else text
        kind = "no label" if is_lead and unit.kind == "plain" else unit.kind
        yield line(unit.address, kind, named.read.name(here), text, goes(named, unit))
        if unit.kind == "store":
            yield from later_stores(named, disassembly, unit)


def line(address, kind, name, text, where=""):
    return ("%08x  %-14s  %-28s %-34s %s" % (address, kind, name, text, where)).rstrip()


def later_stores(named, disassembly, unit):
    """A line each for the stores behind the first of a unit."""
    for address in range(unit.address + 4 * unit.mask + 4, unit.address + 4 * unit.size, 4):
        here = named.map.place(address)
        if here is not None:
            yield line(address, "  store", named.read.name(here), disassembly.text(here, named.read.word_at(here)))


def headings(named, place):
    function = named.read.function(place)
    if function and function.value == place[1]:
        yield ""
    for symbol in named.read.at.get(place, []):
        yield "%s:" % symbol.name
