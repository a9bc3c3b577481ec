#!/usr/bin/env python3
"""Tells in names what rvcfi tells in numbers: refusals, graphs, images and the reports of runs; and what it hardens without a word.

    rvcfi rewrite program.o ..  | python3 tools/explain.py refusal program.o
    python3 tools/explain.py object program.o
    python3 tools/explain.py graph program.o program.graph program.map
    python3 tools/explain.py image program.o program.img program.graph program.map
    python3 tools/explain.py entries program.o program.img program.graph program.map
    rvcfi run program.img .. | python3 tools/explain.py report program.o program.graph program.map
    python3 tools/explain.py words rewrite program.o ..    (the words that rvcfi answered with its usage)

Where objects are joined by `rvcfi link`, all of them stand in the place of program.o, in the order in which they were linked.
It needs Python 3.9 and pyelftools (`apt-get install python3-pyelftools`), and prints instructions where objdump for RISC-V
is there. Nothing of it is trusted, and what it prints proves nothing: `rvcfi verify` alone says whether an image is safe.
Offsets in functions are hexadecimal, as a policy has them. Of objects with debugging information (`-g`) places come with their
file and line. What reads an answer of rvcfi (`refusal`, `report`) ends with the status that this answer came with, as the text tells
it, so a pipe fails as rvcfi failed; where there is no answer with 4. `set -o pipefail` hands on rvcfi's own.
"""

import argparse
import sys

sys.dont_write_bytecode = True

from explain import dot, entries, image, pitfalls, report
from explain.files import ended, joined_of, named_of, object_of, objects_of
from explain.refusal import DUPLICATE, OF_ONE, SECTIONS, Refusal, decimal, number_of, words_of
from explain.statuses import status_of
from explain.texts import Wrong, first_line, image_code

ANSWERS = "refusal", "report"  # what reads an answer of rvcfi


def words_of_command():
    if sys.argv[1:2] == ["words"]:
        import command_line
        sys.exit(command_line.main(sys.argv[2:]))
    words = argparse.ArgumentParser(description=__doc__, formatter_class=argparse.RawDescriptionHelpFormatter)
    commands = words.add_subparsers(dest="command", required=True, metavar="refusal|object|graph|image|entries|report")
    command(commands, "refusal", "reads a refusal on standard input", []).add_argument("--policy")
    command(commands, "object", "warns of what is hardened and may end a run", [])
    graph = command(commands, "graph", "tells classes, sites and system calls by function", ["GRAPH", "MAP"])
    graph.add_argument("--entry", help="the entry's name, to see what it stands for")
    graph.add_argument("--policy", help="the policy that the graph was made with")
    graph.add_argument("--dot", action="store_true", help="prints a file for Graphviz in place of a text")
    command(commands, "image", "lists the units of an image", ["IMAGE", "GRAPH", "MAP"])
    command(commands, "entries", "tells which function of a lean image saves its call's site and which is a leaf, and why", ["IMAGE", "GRAPH", "MAP"])
    command(commands, "report", "reads what run, verify or compare printed on standard input", ["GRAPH", "MAP"])
    return words.parse_args()


def command(commands, name, text, files):
    made = commands.add_parser(name, help=text, description=text)
    made.add_argument("objects", metavar="OBJECT", nargs="+")
    for file in files:
        made.add_argument(file.lower(), metavar=file)
    return made


def refused_of(words, paths):
    """What is refused: of several objects the one that is told, or all as one."""
    number, of = decimal(words[1]), number_of(words)
    if number in OF_ONE and of in range(1, len(paths) + 1):
        return object_of(paths[of - 1])
    return joined_of(paths) if number in (DUPLICATE, SECTIONS) else objects_of(paths)


def refusal_lines(options, answer):
    words = words_of(answer)
    if len(words) < 2 or words[0] != "refused" or not words[1].isdecimal():
        return ["Nothing was refused: " + (first_line(answer) or "there is no answer")]
    try:
        read = refused_of(words, options.objects)
    except Wrong as wrong:
        return refusal_alone(words, options, wrong)
    return Refusal(words, read, read.disassembly(), options).lines()


def refusal_alone(words, options, wrong):
    """What is told of a refusal where the object cannot be read."""
    refusal = Refusal(words, None, None, options)
    return [refusal.heading(), str(wrong)] + list(refusal.told())


def lines_of(options, answer):
    if options.command == "refusal":
        return refusal_lines(options, answer)
    if options.command == "object":
        return pitfalls.lines(objects_of(options.objects))
    named = named_of(options.objects, options.graph, options.map)
    if options.command == "graph":
        return dot.lines(named) if options.dot else named.lines(options.entry, options.policy)
    disassembly = named.read.disassembly()
    if options.command == "image":
        return image.lines(named, disassembly, image_code(options.image))
    if options.command == "entries":
        return entries.lines(named, disassembly, image_code(options.image))
    return report.lines(named, disassembly, answer)


def main():
    options = words_of_command()
    answer = sys.stdin.buffer.read() if options.command in ANSWERS else None
    ended(lambda: lines_of(options, answer))
    return 0 if answer is None else status_of(answer)


if __name__ == "__main__":
    sys.exit(main())
