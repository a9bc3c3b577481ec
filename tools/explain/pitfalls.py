"""What of an object is hardened without a refusal and may still end a run in `__cfi_bad_target`: code that no computed transfer may
go to though its address is taken, code that is aligned, and short distances between places of code."""

import bisect

from .classes import IN_CODE, IN_DATA, Flow

WORD = 4
BITS = {33: 8, 34: 16, 37: 8, 38: 16}  # ADD8, ADD16, SUB8, SUB16
MINUS = {37, 38}
SHOWN = 20


def lines(read):
    found = [*shown(unreached(read)), *shown(aligned(read)), *shown(short_distances(read))]
    yield from found or ["Nothing that hardening does not refuse is known to end a run."]


def shown(found):
    """The first of many lines."""
    found = list(found)
    return found[:SHOWN] + (["    and %d more of this kind" % (len(found) - SHOWN)] if len(found) > SHOWN else [])


def unreached(read):
    """The places whose address is taken and to which no computed transfer may go."""
    flow, users = Flow(read), first_users(read)
    reached = flow.starts.union(*(flow.targets(site) for site in flow.sites))
    for place in sorted(flow.taken - reached):
        yield "%s: its address is taken at %s, and no computed jump or call may go there: %s" % (
            read.name(place), read.name(users[place]), reason(read, place))


def first_users(read):
    """By each place where its address is taken first."""
    found = {}
    for row in read.relocations:
        if row.kind in (IN_CODE if read.is_code(row.section) else IN_DATA):
            found.setdefault(read.target(row), (row.section, row.offset))
    return found


def reason(read, place):
    """Why a taken place that starts no function is no target, and what to do."""
    function = read.function(place)
    if function:
        return "%s, in which it is, has no computed jump" % function.name
    before = function_before(read, place)
    if before and not before.size:
        return "%s, behind which it is, has no `.size`" % before.name
    return "no function starts there (`.type %s, @function`)" % (read.label(place) or "LABEL")


def function_before(read, place):
    """The last function that starts before a place."""
    rows = read.functions.get(place[0], [])
    at = bisect.bisect_right([row.value for row in rows], place[1])
    return rows[at - 1] if at else None


def aligned(read):
    for number in read.code_sections():
        alignment = read.headers[number]["sh_addralign"]
        if alignment > WORD:
            yield "%s is aligned at %d, and hardened code at %d: the low bits of a pointer to it are free no more" % (
                read.section_name(number), alignment, WORD)


def short_distances(read):
    """The places of data that hold a distance between places of code in 8 or 16 bits."""
    found = {}
    for row in read.relocations:
        target = read.target(row) if row.kind in BITS else None
        if target and read.is_code(target[0]):
            found.setdefault((row.section, row.offset, BITS[row.kind]), {})[row.kind in MINUS] = target
    for (section, offset, bits), ends in sorted(found.items()):
        of = " - ".join(read.name(ends[is_minus]) for is_minus in sorted(ends))
        yield "%s: %s in %d bits, which may wrap as code grows, and takes no address" % (read.name((section, offset)), of, bits)
