"""The files that the tools are given, each with a word of help where it cannot be read, and how a tool ends."""

import os
import sys

from elftools.common.exceptions import ELFError

from .elf import Object
from .graph import Named
from .joined import Joined, Part
from .texts import CODE, Graph, Map, Wrong, code_length

FAULTS = (ELFError, ValueError, KeyError, IndexError, TypeError, AttributeError, OverflowError, MemoryError, RecursionError)


def object_of(path, kind=Object):
    try:
        return kind(path)
    except FAULTS as fault:
        raise Wrong("%s cannot be read as an object by pyelftools: %s" % (path, fault or type(fault).__name__)) from fault


def joined_of(paths):
    return Joined([object_of(path, Part) for path in paths])


def objects_of(paths):
    """One object, or several as one."""
    return object_of(paths[0]) if len(paths) == 1 else joined_of(paths)


def named_of(objects, graph, placed):
    read = objects_of(objects)
    try:
        return Named(read, Graph(graph), Map(placed))
    except (ValueError, IndexError) as fault:
        raise Wrong("%s or %s has a line that is none of its kind: `rvcfi verify` tells which" % (graph, placed)) from fault


def image_of(path):
    with open(path, "rb") as file:
        content = file.read()
    code_length(content, path)
    return content


def map_of(path, read, image):
    """The map of an image and its objects."""
    try:
        placed = Map(path)
    except (ValueError, IndexError) as fault:
        raise Wrong("%s has a line that is none of a map" % path) from fault
    if not placed.gates or placed.gates[-1] != CODE + code_length(image, path) - 4:
        raise Wrong("%s is not the map of this image" % path)
    sizes = {number: read.headers[number]["sh_size"] for number in read.code_sections()}
    if any(offset > sizes.get(section, -1) for section, offset in placed.places):
        raise Wrong("%s is not the map of these objects in this order" % path)
    return placed


def shown(line):
    """A line without what a terminal would act on: names of an object are whatever its maker likes."""
    return "".join(letter if letter.isprintable() else "?" for letter in line)


def printed(lines):
    """Prints lines, and ends where nobody reads them."""
    try:
        for line in lines:
            print(shown(line))
        sys.stdout.flush()
    except BrokenPipeError:
        os.dup2(os.open(os.devnull, os.O_WRONLY), sys.stdout.fileno())


def ended(main):
    """The status of a tool, whose lines are printed; or what was wrong with its files."""
    try:
        printed(main())
    except (OSError, Wrong) as wrong:
        sys.exit("%s: %s" % (os.path.basename(sys.argv[0]), wrong))
    return 0
