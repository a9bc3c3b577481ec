#!/usr/bin/env python3
"""Compares what the tables of pairs in the crates of tests say with the rules of rules.py: `python3 tests/model/compare_pairs.py`.

A row of a table is a pair of an image and a graph, by the names of its words and its text, with words that are changed. The status
is 1 where one differs.
"""

import re
import sys
from pathlib import Path

sys.dont_write_bytecode = True
sys.path.insert(0, str(Path(__file__).resolve().parents[2]))

from tests.model.program import IMAGE_VERSIONS
from tests.model.rules import verdict

CRATES = Path(__file__).resolve().parents[2] / "crates"
TABLES = ["test_hostile/src/pairs.rt", "test_pieces/src/pieces.rt", "test_pieces/src/apart.rt", "test_harts/src/images.rt",
          "test_graph/src/pairs.rt"]
SHARED = ["sample_programs/src/units.rt", "sample_programs/src/graphs.rt", "sample_runs/src/codes.rt"]
OF_HARTS = ("SHARED", "JOBS")  # programs for several harts whose names do not say so
PROLOGUES = {1: "PROLOGUE", 2: "PROLOGUE_OF_HARTS"}
VERSIONS = {name: version for version, name in IMAGE_VERSIONS.items()}
VALUE = r'(?:"(?:[^"\\]|\\.)*"|&?\[[^\]]*\]|&?\w+)'
HEADS = {"Q": ("00000124", "40000040"), "Q_OF_HARTS": ("00000134", "40000050")}  # how long the code is, and its entry


class Names:
    """What the names of a source and of the shared ones stand for."""

    def __init__(self, text):
        text = re.sub(r"\\\n\s*", "", text)
        self.words = {name: [int(word, 16) for word in re.findall("0x([0-9a-f]{8})", table)]
                      for name, table in re.findall(r"const (\w+): \[u32; \d+\] = \[(.*?)\];", text, re.S)}
        self.texts = {name: value.replace("\\n", "\n") for name, value in re.findall(r'const (\w+): &(?:\[u8\]|str) =\s+b?"(.*?)";', text)}
        self.numbers = {name: int(value, 16) for name, value in re.findall(r"const (\w+): u32 = 0x([0-9a-f_]+);", text)}

    def number(self, word):
        return self.numbers[word] if word in self.numbers else int(word, 0)

    def text(self, word):
        return word[1:-1].replace("\\n", "\n") if word.startswith('"') else self.texts[word]

    def changes(self, words):
        return [(self.number(at), self.number(word)) for at, word in re.findall(r"\((\w+), (\w+)\)", words)]


def rows_of(source):
    """The rows of a source: the name of each one's type, and its values."""
    source = re.sub(r"//[^\n]*", "", source)
    for kind, row in re.findall(r"\n    (Row|Pair|Case)\((\s*%s(?:,\s*%s)*),?\s*\)," % (VALUE, VALUE), source):
        yield kind, re.findall(VALUE, row)


def program(name):
    """The version of the image of a program."""
    return 2 if name.endswith("_OF_HARTS") or name in OF_HARTS else 1


def pair(names, kind, values, second):
    """The version, the words, the graph and the answer of a row."""
    if kind == "Case":  # units, where a word is changed, the word, the graph, the line that is put
        units, at, word, graph, told = values
        version, changes = program(units[1:]), [(names.number(at), names.number(word))]
    elif kind == "Pair":  # the version, units, the graph, changes, the rule
        version, units, graph, words, told = values
        version, changes = VERSIONS[version], names.changes(words)
    elif len(values) == 4:  # classes, sites, changes, the rule; of `Q`, or of `Q_OF_HARTS` in the second table
        classes, sites, words, told = values
        units = "&Q_OF_HARTS" if second else "&Q"
        version, changes = program(units[1:]), names.changes(words)
        head = "rvcfi-graph 2\ncode 40000000 %s\n" % HEADS[units[1:]][0]
        graph = head + names.text(classes) + "call 4000000c %s\n" % HEADS[units[1:]][1] + names.text(sites) + "end\n"
    elif len(values) == 7:  # the version, the prologue, units, the graph, the index of a word, the word, the rule
        version, prologue, units, graph, at, word, told = values
        words = names.words[prologue[1:]] + names.words[units[1:]]
        words[int(at)] = names.number(word)
        return VERSIONS[version], words, names.texts[graph], told[1:-1]
    else:  # the version, units, the graph, where a word is changed, the word, the rule
        version, units, graph, at, word, told = values
        version, changes = VERSIONS[version], [(names.number(at), names.number(word))]
    words = names.words[PROLOGUES[version]] + names.words[units[1:]]
    for at, word in changes:
        words[at // 4] = word
    return version, words, names.texts.get(graph, graph), told[1:-1]


def compared(path):
    """How many rows a table has, how many of them with graphs of version 2, and how many of them differ."""
    source = (CRATES / path).read_text()
    names = Names("\n".join((CRATES / name).read_text() for name in SHARED) + source)
    first = source.find("static ROWS_OF_HARTS")
    parts = [(source, False)] if first < 0 else [(source[:first], False), (source[first:], True)]
    count = of_version_2 = wrong = 0
    for text, second in parts:
        for kind, values in rows_of(text):
            version, words, graph, told = pair(names, kind, values, second)
            told = told.replace("\\n", "").replace("rejected ", "") or "accepted"
            got = verdict(version, words, graph.encode()).replace("rejected ", "")
            count, of_version_2, wrong = count + 1, of_version_2 + graph.startswith("rvcfi-graph 2"), wrong + (got != told)
            if got != told:
                print("%s: %s, and by the rules %s: %s" % (path, told, got, ", ".join(values)))
    return count, of_version_2, wrong


def main():
    found = [compared(path) for path in TABLES]
    for path, (count, _, differ) in zip(TABLES, found):
        print("%s: %d rows, %d differ" % (path, count, differ))
    count, of_version_2, wrong = map(sum, zip(*found))
    print("%d pairs, %d of them with graphs of version 2, %d differ" % (count, of_version_2, wrong))
    return 1 if wrong else 0


if __name__ == "__main__":
    sys.exit(main())
