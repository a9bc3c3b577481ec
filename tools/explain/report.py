"""The report of a run, or another answer about an image, in names."""

from . import numbers
from .elf import ECALL
from .texts import HANDLERS, OPENING, first_line, report_of

CAUSES = {
    "__cfi_bad_target": "the address that it was to go to is no target of its class",
    "__cfi_bad_return": "the address that it was to return to is not its call's site",
    "__cfi_deep": "8,191 calls were pending",
}
UNTAME = {
    "graph": "it would go to what is not in its class",
    "return": "it would return to another place than its call's",
    "window": "it would load or store outside of 0 to 2^28 - 1",
    "deep": "it would call with 8,190 calls pending",
    "end": "the program ran over the end of a section",
    "call": "it would make a system call whose number is not in the list",
}
BASED = ", or store off a base that is not below 2^28"  # what lean images add to `window`


def name_of(named, address):
    """The name of an address of a walk."""
    if address in HANDLERS:
        return HANDLERS[address]
    if address in (OPENING, named.map.prologue.closing):
        return "the opening" if address == OPENING else "the closing"
    return named.place(address)


def instruction(named, disassembly, address):
    place = named.map.place(address)
    if place is None:
        return ""
    if named.is_before_body(address):
        return "its enter, or what leads over it"
    return "the end of a section" if named.map.is_end(place) else disassembly.text(place, named.read.word_at(place))


def lines(named, disassembly, text):
    """What an answer says, by its first word."""
    words = text.decode("ascii", "replace").split()
    if not words:
        yield "There is no answer: the program ended with status 4 or 5, or was not run."
    elif words[0] == "output":
        yield from of_run(named, disassembly, text)
    elif words[0] == "rejected":
        yield from of_rejected(named, disassembly, words)
    elif words[0] == "untame":
        yield from of_untame(named, disassembly, words)
    else:
        yield "Nothing in this answer has a name: " + first_line(text)


def of_run(named, disassembly, text):
    output, lines = report_of(text)
    report = {line[0]: line[1:] for line in lines}
    if "harts" in report:
        yield from of_harts(named, disassembly, len(output), report, lines)
        return
    trail = [int(word, 16) for word in report.get("trail", [])]
    yield "%d bytes of output, %s steps, %s units begun" % (len(output), *report["steps"], *report["walk"])
    yield "The last of them, the newest at the end:"
    yield from of_trail(named, disassembly, trail)
    yield from of_stop(named, disassembly, report["stop"], trail)


def of_trail(named, disassembly, trail):
    for address in trail:
        text = "    %08x  %-34s %s" % (address, name_of(named, address), instruction(named, disassembly, address))
        yield (text.rstrip() + named.at_line(address)).rstrip()


def of_harts(named, disassembly, length, report, lines):
    """A run of several harts: what each has begun, and which one ended it."""
    yield "%d bytes of output, %s steps, %s harts" % (length, *report["steps"], *report["harts"])
    walks = {line[1]: line[2] for line in lines if line[0] == "walk"}
    trails = {line[1]: [int(word, 16) for word in line[2:]] for line in lines if line[0] == "trail"}
    for hart, count in walks.items():
        yield "Hart %s began %s units; the last of them, the newest at the end:" % (hart, count)
        yield from of_trail(named, disassembly, trails.get(hart, []))
    stop = report["stop"]
    if stop[0] == "hart":
        yield "Hart %s ended the run:" % stop[1]
        yield from of_stop(named, disassembly, stop[2:], trails.get(stop[1], []))
    else:
        yield from of_stop(named, disassembly, stop, [])


def of_stop(named, disassembly, stop, trail):
    """How the run ended, and where."""
    last = trail[-1] if trail else None
    if stop[0] == "handler":
        yield from of_handler(named, disassembly, stop[1], trail)
    elif stop[0] in ("break", "load"):
        at = int(stop[1], 16)
        what = "its own EBREAK" if stop[0] == "break" else "a load from %s, which is outside memory" % stop[2]
        where = "%s (%08x)%s" % (name_of(named, at), at, named.at_line(at))
        yield "The program ended in %s: %s, by %s." % (where, what, instruction(named, disassembly, at))
    elif stop[0] == "exit":
        yield "The program ended itself with status %s%s." % (stop[1], ", in " + name_of(named, last) if last else "")
    else:
        yield "The steps ended before the program%s." % (", in " + name_of(named, last) if last else "")


def cause_of(named, handler, place):
    """Why a place went to a handler: a system call does where its number is not in the list."""
    is_call = place is not None and named.read.word_at(place) == ECALL
    return "the number of its system call is not in the list" if is_call else CAUSES[handler]


def of_handler(named, disassembly, handler, trail):
    if len(trail) < 2:
        yield "The run ended in %s." % handler
        return
    site = trail[-2]
    place = named.map.place(site)
    if place and named.map.is_end(place):
        yield "The run ended in %s: the program ran over the end of a section, behind %s." % (handler, name_of(named, site))
        return
    where = "%s (%08x)%s" % (name_of(named, site), site, named.at_line(site))
    yield "The run ended in %s: what failed is %s, by %s: %s." % (
        handler, where, instruction(named, disassembly, site), cause_of(named, handler, place))
    found = named.graph.site(site)
    if place and named.read.word_at(place) == ECALL and named.graph.numbers is not None:
        yield "It is a system call, whose number may be %s." % (" or ".join(map(str, named.graph.numbers)))
        yield refused_number(numbers.number_after(named.read, [named.map.place(address) for address in trail[:-2]], place))
    if found:
        yield "It is a computed %s of %s, which may go to: %s." % (
            found.kind, named.graph.name(found.label), named.names(named.graph.classes.get(found.label, [])))
    if handler != "__cfi_deep" and named.read.word_at(place or (0, 0)) != ECALL:
        yield "Which address it was `tools/profile.py` tells, which runs the image."


def of_rejected(named, disassembly, words):
    if words[1] == "Length":
        yield "The code has %s bytes, and the graph says %s." % (words[2], words[3])
        return
    at = int(words[2], 16)
    yield "The rule %s fails at %08x: %s, %s." % (words[1], at, name_of(named, at), instruction(named, disassembly, at))
    yield "docs/FORMATS.md says what each rule asks. The map may be another image's: verify reads none."


def of_untame(named, disassembly, words):
    place = int(words[2]), int(words[3])
    where, why = named.read.name(place) + named.read.at_line(place), UNTAME.get(words[1], words[1]) + BASED * (words[1] == "window" and named.graph.is_lean)
    yield "%s leaves what is compared at %s: %s." % (named.read.own_run, where, why)
    yield "The instruction: " + disassembly.text(place, named.read.word_at(place))
    if words[1] == "call":
        yield refused_number(numbers.number_after(named.read, [], place))


def refused_number(number):
    """The number of a system call that a list refused, or how it is found."""
    if number is not None:
        return "The number that was refused is %d." % number
    return "Which number was refused is not told here: `tools/profile.py` runs the image and tells what a7 was at the end."
