"""Whether the tables of the crate test_lean say what the model says of their pairs and runs. What does not is told by a line."""

import ast
import re
from pathlib import Path

from tests.model.lean_rules import pair_of, told
from tests.model.program import Built
from tools.simulator.runs import answer

SOURCES = Path(__file__).resolve().parents[2] / "crates" / "test_lean" / "src"
CASES = {"CASES": (1, 54), "CASES_OF_HARTS": (2, 4)}  # by the table's name the images' version, and how many rows it has
RUNS = 14
TEXT = r'"(?:[^"\\]|\\.)*"'


def source(name):
    return (SOURCES / name).read_text()


def constant(text):
    """The value of a constant of texts or bytes."""
    return ast.literal_eval(re.sub(r"\\\n\s*", "", text))


def constants(text):
    return {name: constant(value) for name, value in re.findall(r'const (\w+): &(?:str|\[u8\]) =\s*(b?"(?:[^"\\]|\\.|\\\n)*");', text)}


def programs():
    """The words and the graph of each program, by its name."""
    text = source("samples.rt")
    words = {name: [int(word, 16) for word in re.findall(r"0x[0-9a-f]+", row)] for name, row in re.findall(r"static (\w+): \[u32; \d+\] = \[(.*?)\];", text, re.S)}
    graphs = constants(text)
    named = re.findall(r"Program::(\w+) => &(\w+),", text)
    return {name: (words[table], graphs[table + "_GRAPH"]) for name, table in named}


def rows(table):
    """The rows of a table of pairs: program, offset, word, a text of the graph, what stands there in its place, and the line."""
    text = source("pairs.rt")
    named = constants(text)
    body = re.search(r"static %s: \[Case; \d+\] = \[(.*?)\n\];" % table, text, re.S)[1]
    value = lambda word: ast.literal_eval(word) if word.startswith('"') else named[word]
    for name, at, word, old, new, said in re.findall(r"Case\(Program::(\w+), (0x\w+), (0x\w+), (%s|\w+), (%s|\w+), (%s)\)" % (TEXT, TEXT, TEXT), body):
        yield name, int(at, 16), int(word, 16), value(old), value(new), value(said)


def pairs_told():
    known = programs()
    for table, (version, count) in CASES.items():
        found = list(rows(table))
        if len(found) != count:
            yield "%s has %d rows that are read, not %d" % (table, len(found), count)
        for name, at, word, old, new, said in found:
            words, graph = known[name]
            graph = graph.decode()
            changed = words[:at // 4] + [word] + words[at // 4 + 1:]
            got = told(version, changed, graph.replace(old, new).encode()) + "\n"
            if graph.count(old) != 1 or got != said:
                yield "%s, %s, %x %08x %r: %r, not %r" % (table, name, at, word, new, got, said)


def runs_told():
    """The runs, one hart or as many as their script tells, from the version of the sample's image."""
    known, data, text = programs(), constants(source("samples.rt")), source("runs.rt")
    samples = {image: (name, 2 if version == "EightHarts" else 1, data.get(held, b""))
               for name, image, version, held in re.findall(r'Sample\(Program::(\w+), "([\w.]+)", ImageVersion::(\w+), (\w+|b""),', text)}
    scripts = {name: constant(value) for name, value in re.findall(r'\("(\w+)", (b"(?:[^"\\]|\\.)*")\)', text)}
    asked = constants(text)["RUNS"].decode().split(";")
    if len(asked) != RUNS:
        yield "%d runs are read, not %d" % (len(asked), RUNS)
    for row in asked:
        command, _, wanted = row.partition(" = ")
        status, _, report = wanted.partition(": ")
        _, _, image, _, script, _, limit = command.split(",")
        name, version, held = samples[image]
        words, lines = known[name]
        built = Built(version, words, held, lines, pair_of(version, words, lines).starts(), {})
        got = answer(built, scripts.get(script), b"", int(limit))
        if got != (int(status), report.encode()):
            yield "%s: %r, not %r" % (command, got, wanted)


def checks():
    """How many rows there are, and a line for each that is not so."""
    return sum(count for _, count in CASES.values()) + RUNS, [*pairs_told(), *runs_told()]
