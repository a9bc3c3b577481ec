"""The programs of tests/real, and how they are compiled, joined, linked, hardened and run."""

import functools
import os
import struct
import subprocess
import sys
from typing import NamedTuple

from docs.tutorial import for_qemu as qemu_script
from tests.shared.paths import ROOT
from tests.shared.texts import policy_text
from tools.sysroot.compilers import SECONDS, Missing, binutils, clang, gcc, must, run, tool

SOURCES = str(ROOT / "tests" / "real")
QEMU_SCRIPT = [sys.executable, str(ROOT / "docs" / "tutorial" / "for_qemu.py")]
STATES_SOURCE = str(ROOT / "bench" / "programs" / "states.c")
LEVELS = ["-O0", "-O1", "-O2", "-O3", "-Os"]
ENTRY = "_start"
STEPS = "100000000"
CALLS = 63, 64, 93  # the system calls of start.s
LIBRARY = {"rv64im": ["start.s", "memory.c", "text.c"], "rv64i": ["start.s", "arithmetic.c", "memory.c", "text.c"]}
PROCESSORS = list(LIBRARY)


class Program(NamedTuple):
    """A program's name, its files beside those of the library, and an input."""
    name: str
    files: list
    input: bytes


PROGRAMS = [
    Program("sorter", ["sorter.c", "orders.c"], b"abcdefgx"),
    Program("digest", ["digest.c", "sha256.c"], bytes(range(256)) + b"two pieces and a bit"),
    Program("interpreter", ["interpreter.c", "bytecode.c"], b""),
    Program("calculator", ["calculator.c", "grammar.c"],
            b"1+2*3\n(4 - 10) * -7 % 5\n2*(3\n1000/7/2 - 1\n9/0\n((((8))))*12345678901\n\n- - (-(2))"),
    Program("visitors", ["visitors.c", "door.c"], b"n\3Anng\2m\5hellon\5Ernstg\1m\3abc?\0o\5opensg\1o\6sesame"),
]

STATES = Program("states", [], b"The 12 states, of 3 (or 4) tables: 'go' on & on! -- 100% + 7 * 8 # \"end\".\n" * 40)


def compilers_here(absent, processors=("rv64im",)):
    """The compilers that are here, for each processor; of one that is not, what is missing and its name are printed."""
    found = []
    for make in (gcc, clang):
        try:
            found += [make(processor) for processor in processors]
        except Missing as what:
            print(absent % (what, make.__name__))
    return found


def source(name):
    return os.path.join(SOURCES, name)


def compiled(compiler, level, name, folder):
    """Compiles a file of this folder, once for a compiler and a level, and answers the object's path."""
    path = os.path.join(folder, "%s_%s%s_%s.o" % (compiler.name, compiler.processor, level, name.split(".")[0]))
    if not os.path.exists(path):
        options = [] if name.endswith(".s") else compiler.options + [level]
        must(compiler.command + options + ["-c", source(name), "-o", path])
    return path


def objects_of(compiler, level, program, folder):
    """Compiles a program's files and answers the objects' paths."""
    return [compiled(compiler, level, name, folder) for name in LIBRARY[compiler.processor] + program.files]


def joined(compiler, level, program, folder):
    """Compiles a program's files, joins them to one object and answers its path."""
    path = os.path.join(folder, "%s_%s%s_%s_joined.o" % (compiler.name, compiler.processor, level, program.name))
    must(compiler.join + ["-o", path] + objects_of(compiler, level, program, folder))
    return path


def states_object(compiler, level, folder):
    """Compiles the program of bench, joins it with the library and answers the object's path."""
    own, path = (os.path.join(folder, "%s%s_states%s" % (compiler.name, level, end)) for end in (".o", "_joined.o"))
    must(compiler.command + compiler.options + [level, "-I", SOURCES, "-c", STATES_SOURCE, "-o", own])
    must(compiler.join + ["-o", path, own] + [compiled(compiler, level, name, folder) for name in LIBRARY[compiler.processor]])
    return path


def shared(compiler):
    """The same compiler with -fpic."""
    return compiler._replace(name=compiler.name + "pic", options=["-fpic" if each == "-fno-pic" else each for each in compiler.options])


def linked(joined_object):
    """Links an object to a program that is not hardened, and answers its path."""
    path = joined_object.replace("_joined.o", ".elf")
    must([binutils("ld"), "-T", source("plain.ld"), "-o", path, joined_object])
    return path


def on_host(program, folder):
    """The output and the status of a program that is compiled for the host."""
    path = os.path.join(folder, program.name)
    must([tool("gcc", "cc", "clang"), "-O1", "-o", path] + [source(name) for name in ["host.c", "text.c"] + program.files])
    done = run([path], program.input)
    return done.stdout, done.returncode


def under_qemu(path, given):
    """The output and the status of a program under qemu's user mode; a signal's number is negative."""
    done = run([tool("qemu-riscv64", "qemu-riscv64-static"), path], given)
    return done.stdout, done.returncode


@functools.lru_cache(None)
def tracing():
    """The command by which qemu tells each instruction that it runs."""
    qemu = tool("qemu-riscv64", "qemu-riscv64-static")
    single = "-one-insn-per-tb" if b"one-insn-per-tb" in run([qemu, "-help"]).stdout else "-singlestep"
    return [qemu, single, "-d", "nochain,exec", "-D", "/dev/stderr"]


def traced(path, given):
    """The output and the status of a program under qemu, and the addresses of the instructions that are run, in their order."""
    done = run(tracing() + [path], given)
    return (done.stdout, done.returncode), [int(line.split(b"/")[1], 16) for line in done.stderr.splitlines() if line.startswith(b"Trace ")]


def addresses_run(path, given):
    """The addresses of the instructions that qemu runs, in their order."""
    return traced(path, given)[1]


def counted(path, given):
    """The output and the status of a program under qemu, and how many instructions are run."""
    counter = subprocess.Popen(["grep", "-c", "^Trace "], stdin=subprocess.PIPE, stdout=subprocess.PIPE)
    done = subprocess.run(tracing() + [path], input=given, stdout=subprocess.PIPE, stderr=counter.stdin, timeout=SECONDS)
    return (done.stdout, done.returncode), int(counter.communicate()[0])


def for_qemu(image):
    """Makes the file for qemu's user mode of an image, and answers its path."""
    path = image.replace(".img", ".qemu")
    qemu_script.main(image, path)
    return path


def symbol(path, wanted):
    """The section and the value of a symbol that an object or a linked program defines."""
    with open(path, "rb") as file:
        content = file.read()
    start, = struct.unpack_from("<Q", content, 40)
    count, = struct.unpack_from("<H", content, 60)
    sections = [struct.unpack_from("<IIQQQQIIQQ", content, start + 64 * k) for k in range(count)]
    table = next(section for section in sections if section[1] == 2)
    names = sections[table[6]][4]
    for at in range(table[4], table[4] + table[5], 24):
        name, _, _, section, value, _ = struct.unpack_from("<IBBHQQ", content, at)
        if section and content[names + name:].split(b"\0", 1)[0] == wanted.encode():
            return section, value
    raise KeyError(wanted)


def sections(path):
    """How many sections an object has, number 0 counted."""
    with open(path, "rb") as file:
        return struct.unpack_from("<H", file.read(62), 60)[0]


def segments(path):
    """The address and the content of each part of a linked program that is loaded."""
    with open(path, "rb") as file:
        content = file.read()
    start, = struct.unpack_from("<Q", content, 32)
    count, = struct.unpack_from("<H", content, 56)
    headers = [struct.unpack_from("<IIQQQQQQ", content, start + 56 * k) for k in range(count)]
    return [(header[3], content[header[2]:header[2] + header[5]]) for header in headers if header[0] == 1]


def code_size(path):
    """The bytes of a linked program's code."""
    lines = must([binutils("size"), "-A", path]).decode().splitlines()
    return next(int(line.split()[1]) for line in lines if line.startswith(".text "))


def sections_of_code(path):
    """How many sections of a file are of code: hardened, each ends with a word more, an empty one too."""
    lines = must([binutils("readelf"), "-SW", path]).decode().splitlines()
    rows = (line.partition("]")[2].split() for line in lines)
    return sum(row[1] == "PROGBITS" and "X" in row[6] for row in rows if len(row) > 6)


def policy_file(calls, path):
    """Writes a policy with a list of system calls, and answers its path."""
    with open(path, "w") as file:
        file.write(policy_text(calls))
    return path


class Hardened:
    """An object hardened in a form: its files, and what the tool says of them."""
    entry = ENTRY

    def __init__(self, tool_path, joined_object, form="plain", policy="none"):
        self.tool, self.object, self.form, self.policy = tool_path, joined_object, form, policy
        name = joined_object.replace("_joined.o", "" if form == "plain" else "_" + form)
        name += "" if policy == "none" else "_" + os.path.basename(policy)
        self.image, self.graph, self.map = (name + end for end in (".img", ".graph", ".map"))
        command = ["rewrite"] if form == "plain" else ["harden", form]
        self.told = self.asked(command + [self.object, self.entry, policy, self.image, self.graph, self.map])

    def asked(self, words, given=b""):
        done = run([self.tool] + words, given)
        return done.returncode, done.stdout

    def input_file(self, given):
        path = self.image + ".input"
        with open(path, "wb") as file:
            file.write(given)
        return path

    def verified(self):
        return self.asked(["verify", self.image, self.graph])

    def run(self, given, script="none", steps=STEPS):
        """The status, the output, and the words of each line of the report of a run."""
        status, text = self.asked(["run", self.image, self.graph, script, self.input_file(given), str(steps)])
        first, rest = text.split(b"\n", 1)
        length = int(first.split()[1])
        lines = [line.split() for line in rest[length + 1:].decode().splitlines()]
        return status, rest[:length], {line[0]: line[1:] for line in lines}

    def compared(self, given):
        return self.asked(["compare", self.object, self.entry, self.policy, self.image, self.map, self.input_file(given), STEPS])

    def place(self, name):
        """The section and the offset of a function, as the map has them."""
        return symbol(self.object, name)

    def gate(self, name):
        """The address of a function in the image, by the map."""
        section, offset = self.place(name)
        with open(self.map) as file:
            lines = [line.split() for line in file]
        return next(int(line[1], 16) for line in lines if line[2:] == ["%04x" % section, "%08x" % offset])

    def code_size(self):
        return int(self.told[1].split()[2])

    def classes(self):
        """The targets of each class of the graph, as places of the object, and of each site its kind and the class's targets."""
        found, sites = {}, []
        with open(self.map) as file:
            places = {line.split()[1]: tuple(line.split()[2:]) for line in file if line.startswith("at ")}
        with open(self.graph) as file:
            for words in map(str.split, file):
                if words[0].endswith("class"):
                    found[words[1]] = {places[address] for address in words[2:]}
                elif words[0] == "site":
                    sites.append((words[2], found[words[3]]))
        return found, sites


class Linked(Hardened):
    """Objects that the tool itself joins, hardened in a form."""

    def __init__(self, tool_path, objects, name, form="plain", policy="none"):
        self.tool, self.objects, self.form, self.policy = tool_path, objects, form, policy
        name += "" if policy == "none" else "_" + os.path.basename(policy)
        self.image, self.graph, self.map = (name + end for end in ("_linked.img", "_linked.graph", "_linked.map"))
        self.told = self.asked(["link", form, self.entry, policy, self.image, self.graph, self.map, *objects])

    def compared(self, given):
        return self.asked(["compare-link", self.entry, self.policy, self.image, self.map, self.input_file(given), STEPS, *self.objects])

    def place(self, name):
        """Sections are numbered on from object to object."""
        before = 0
        for path in self.objects:
            try:
                section, offset = symbol(path, name)
                return before + section, offset
            except KeyError:
                before += sections(path)
        raise KeyError(name)
