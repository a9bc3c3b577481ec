#!/usr/bin/env python3
"""Tests the library for C and for Rust that library/build.sh has built.

    python3 library/test.py [--program PATH] [--pairs 1000]

The header, the C files by each compiler that is there, memory, threads, stack, layout, bounds and the arena; `ask` beside the models
and the program (crates/rvcfi/out/rvcfi where none is named; a line says where it is not built) on changed pairs; the loader on the
tutorial's plugin and its attacks; the Rust crate; and what is built for aarch64. What this machine lacks is told as skipped.
The last line counts the checks, and the status is 1 where one failed.
"""

import argparse
import ctypes
import os
import re
import shutil
import sys
import tempfile
from pathlib import Path

sys.dont_write_bytecode = True
sys.path.insert(0, str(Path(__file__).resolve().parents[1]))

from bench import images
from library.tests import compare, loading, running
from library.tests.checks import Told, ended
from library.tests.made import is_the_tutorials

HERE = Path(__file__).resolve().parent
LIB, OUT, TESTS = HERE / "lib", HERE / "out", HERE / "tests"
PAIRS = TESTS / "pairs"
VISITORS, PLUGIN, LEAF = ([str(PAIRS / (name + end)) for end in (".img", ".graph")] for name in ("visitors", "plugin", "leaf"))
FOLDERS = ["-I%s" % (HERE / name) for name in ("include", "examples", "c", "tests")]
WARNINGS = ["-Wall", "-Wextra", "-pedantic", "-Werror"]
MORE = ["-Wshadow", "-Wconversion", "-Wstrict-prototypes", "-Wmissing-prototypes", "-Wwrite-strings"]
HELPERS = [HERE / "examples" / name for name in ("file.c", "words.c")]
FUNCTIONS = ["rvcfi_calls", "rvcfi_plan", "rvcfi_verify"]
NEEDS = {"memcpy", "memset", "rattle_alloc", "rattle_dealloc", "rattle_realloc"}
ARCHIVES = {"librvcfi_c.a": (set(FUNCTIONS), NEEDS), "librvcfi_run_c.a": ({"rvcfi_run"}, NEEDS | {"memmove"})}  # what they export and need
STANDARDS = [("c", each) for each in ("c99", "c11", "c17")] + [("c++", each) for each in ("c++98", "c++11", "c++17", "c++20")]
LINKS = [["-O0"], ["-O1"], ["-O3", "-flto"], ["-static"], ["-static-pie"], ["-Wl,--gc-sections"]]


class Machine:
    """A compiler, the folder of its archives, and what its programs run under."""

    def __init__(self, told, folder, compiler, archives=LIB, runner=()):
        self.told, self.folder, self.compiler, self.archives, self.runner = told, Path(folder), compiler, archives, list(runner)

    def named(self, what):
        return "%s (%s)" % (what, self.compiler)

    def can(self, what, options, language="c"):
        """Whether this machine compiles and runs a program by these options; where not, it is told."""
        path = str(self.folder / "nothing")
        status = ended([self.compiler, "-x", language, "-", *options, "-o", path], b"int main(void) { return 0; }\n")[0] or ended(self.runner + [path])[0]
        if status:
            self.told.skip(self.named(what), "this machine has not what %s needs" % " ".join(options or ["it"]))
        return not status

    def built(self, name, sources, options=(), standard="c99", heap="librvcfi_heap.a"):
        """The command that runs a program of these files, or None where it does not compile."""
        path = self.folder / ("%s_%s" % (name, os.path.basename(self.compiler)))
        archives = [self.archives / each for each in [*ARCHIVES, *([heap] if heap else [])]]
        given = ["-std=" + standard, "-O2", *WARNINGS, *MORE, *FOLDERS, *options]
        command = [self.compiler, *given, *sources, *HELPERS, *archives, "-o", path]
        if self.told.ends_well(self.named("compiling %s" % " ".join([name, *options])), list(map(str, command))):
            return self.runner + [str(path)]
        return None

    def test(self, name, words, options=(), standard="c99", heap="librvcfi_heap.a"):
        """Compiles a test of the folder tests and runs it with these words."""
        command = self.built(name, [TESTS / (name + ".c")], options, standard, heap)
        if command:
            self.told.ends_well(self.named("%s %s" % (name, " ".join(options))), command + list(map(str, words)))


def symbols(told, folder, machine):
    """The exports of each archive, and what it needs."""
    for name, (exports, needs) in ARCHIVES.items():
        archive = "%s for %s" % (name, machine)
        _, out, _ = ended(["nm", str(folder / name)])
        rows = [line.split() for line in out.decode().splitlines()]
        told.same("the exports of " + archive, {row[-1] for row in rows if row[-2:-1] == ["T"]}, exports)
        told.same("what %s needs" % archive, {row[-1] for row in rows if row[-2:-1] == ["U"]}, needs)
        kinds = {row[-2] for row in rows if len(row) > 1 and not row[-1].startswith("$")}  # (such a name marks a section for aarch64)
        told.same("no data that may be written in " + archive, kinds & set("DdBbC"), set())


def header(machine):
    """The headers by themselves, in each standard."""
    for language, standard in STANDARDS:
        if machine.can("the headers as " + standard, ["-std=" + standard], language):
            command = [machine.compiler, "-x", language, "-std=" + standard, *WARNINGS, "-Wshadow", "-Wconversion", FOLDERS[0], "-fsyntax-only"]
            machine.told.ends_well(machine.named("the headers as " + standard), command + [str(TESTS / "header.c")])


def each_way(machine, sanitizer, options, *more):
    """These options, and where this machine has a sanitizer those with it."""
    yield options
    sanitized = [*options, "-g", "-fsanitize=" + sanitizer, *more]
    if machine.can("the sanitizer " + sanitizer, sanitized):
        yield sanitized


def asked_of_memory(folder):
    """Outcomes, each with its pair: the tutorial's, one with more lines, and one whose graph fails at its last line."""
    larger, cut = [str(folder / name) for name in ("larger.img", "larger.graph")], str(folder / "cut.graph")
    image, graph, _ = images.pair(20000, 100)
    for name, content in zip([*larger, cut], (image, graph, graph[:-1])):
        Path(name).write_bytes(content)
    return [(0, *VISITORS), (0, *PLUGIN), (3, PLUGIN[0], VISITORS[1]), (0, *larger), (2, larger[0], cut)]


def memory(machine):
    """Each request of memory fails in turn, of verdicts and of runs; and the arena."""
    for options in each_way(machine, "address,undefined", [], "-fno-sanitize-recover=all"):
        command = machine.built("memory", [TESTS / "memory.c"], options, heap=None)
        for outcome, *pair in asked_of_memory(machine.folder) if command else []:
            machine.told.ends_well(machine.named("memory %s" % " ".join(options)), command + [str(outcome), *pair])
        machine.test("ran", [*VISITORS, PLUGIN[1]], options, standard="c11", heap=None)
        machine.test("arena", [], options)


def threads(machine):
    """Threads with three pairs."""
    pairs = ["accepted", *VISITORS, "accepted", *PLUGIN, "rejected Length 2532 2420", PLUGIN[0], VISITORS[1]]
    for options in each_way(machine, "thread", ["-pthread"]):
        machine.test("threads", [200, *pairs], options)


def stack(machine, options=()):
    """How much of its stack each call writes."""
    command = machine.built("stack", [TESTS / "stack.c"], ["-pthread", *options])
    for name in FUNCTIONS if command else []:
        status, out, err = ended(command + [name, *VISITORS])
        print(machine.named(out.decode().strip()))
        machine.told.check(machine.named("the stack of " + name), status == 0, err.decode())


def bare(machine):
    """A program without a C library."""
    path = machine.folder / "bare"
    names = ['-D%s="%s"' % (name, each) for name, each in zip(("IMAGE", "GRAPH"), PLUGIN)]
    sources = [TESTS / "bare.c", HERE / "c" / "arena.c", machine.archives / "librvcfi_c.a"]
    options = ["-std=c99", "-O2", *WARNINGS, *MORE, "-ffreestanding", "-nostdlib", "-static"]
    command = [machine.compiler, *options, *FOLDERS, *names, *sources, "-o", path]
    if machine.told.ends_well(machine.named("compiling bare"), list(map(str, command))):
        machine.told.ends_well(machine.named("bare"), machine.runner + [str(path)])


def arenas(machine):
    """What is asked with too small an arena, and with one that is large enough."""
    for size, wanted in (2048, (5, b"")), (65536, (0, b"accepted\n")):
        command = machine.built("ask_in_an_arena", [HERE / "examples" / "ask.c", HERE / "c" / "arena.c"], ["-DRVCFI_ARENA=%d" % size], heap=None)
        if command:
            machine.told.same(machine.named("ask in an arena of %d bytes" % size), ended(command + VISITORS)[:2], wanted)


def links(machine):
    """Ways to link the library."""
    for options in LINKS:
        command = machine.can("linking", options) and machine.built("ask_linked", [HERE / "examples" / "ask.c"], options)
        if command:
            machine.told.same(machine.named("ask by " + " ".join(options)), ended(command + VISITORS)[:2], (0, b"accepted\n"))


class Verdict(ctypes.Structure):
    """struct rvcfi_verdict."""
    _fields_ = [("outcome", ctypes.c_uint32), ("reason", ctypes.c_uint32), ("first", ctypes.c_uint64), ("second", ctypes.c_uint64)]


def shared(told, folder):
    """The library as a shared object, asked from Python."""
    path = os.path.join(folder, "librvcfi.so")
    archives = [str(LIB / ("librvcfi_%s.a" % name)) for name in ("c", "heap")]
    command = ["cc", "-shared", "-Wl,--whole-archive", *archives, "-Wl,--no-whole-archive", "-o", path]
    if told.ends_well("linking a shared object", command):
        image, graph, verdict = Path(PLUGIN[0]).read_bytes(), Path(VISITORS[1]).read_bytes(), Verdict()
        size, verify = ctypes.c_size_t, ctypes.CDLL(path).rvcfi_verify
        answer = verify(image, size(len(image)), graph, size(len(graph)), ctypes.byref(verdict))
        told.same("a shared object", (answer, verdict.outcome, verdict.reason, verdict.first, verdict.second), (3, 3, 1, 2532, 2420))


def large_files(folder):
    """A pair of a megabyte, a file of as many bytes as are allowed, and one of one more."""
    image, graph, most, over = [os.path.join(folder, name) for name in ("image", "graph", "most", "over")]
    for name, content in zip((image, graph), images.pair(1 << 20)):
        Path(name).write_bytes(content)
    for name, length in (most, 1 << 26), (over, (1 << 26) + 1):
        Path(name).touch()
        os.truncate(name, length)
    return [image, graph], most, over


def words_of_ask(told, ask, folder):
    """What `ask` says of its words and files, as docs/COMMANDS.md has it of `rvcfi verify`."""
    absent = str(OUT / "absent")
    large, most, over = large_files(folder)
    late = os.path.join(folder, "late.graph")  # its leaf begins inside a unit
    Path(late).write_bytes(Path(LEAF[1]).read_bytes().replace(b"leaf 40000074", b"leaf 40000070"))
    for what, words, wanted in [
        ("a large pair", large, (0, b"accepted\n")),
        ("a file of 2^26 bytes", [most, VISITORS[1]], (1, b"refused 22 Byte 0\n")),
        ("a file of 2^26 + 1 bytes", [VISITORS[0], over], (6, b"too long %s\n" % over.encode())),
        ("two files", VISITORS, (0, b"accepted\n")),
        ("a lean pair", LEAF, (0, b"accepted\n")),
        ("a leaf that begins inside a unit", [LEAF[0], late], (1, b"rejected Leaf 40000070\n")),
        ("one word", VISITORS[:1], (2, b"usage: ask IMAGE GRAPH\n")),
        ("no image", [absent, VISITORS[1]], (3, b"read fault %s\n" % absent.encode())),
        ("no graph", [VISITORS[0], absent], (3, b"read fault %s\n" % absent.encode())),
        ("a folder", [str(OUT), absent], (3, b"read fault %s\n" % str(OUT).encode())),
        ("a file without an end", ["/dev/zero", absent], (6, b"too long /dev/zero\n")),
        ("an empty file", ["/dev/null", VISITORS[1]], (1, b"refused 22 Short 0\n")),
    ]:
        told.same("ask: " + what, ended(ask + words)[:2], wanted)
    told.same("ask: a full device", ended(["sh", "-c", '"$@" > /dev/full', "sh", *ask, *VISITORS])[0], 4)


def changed_pairs(told, ask, program, count, what):
    """`ask` on changed pairs, beside expected.py and the program."""
    wrong, sorts = compare.compared(count, 1, ask, program)
    print("%s: %s" % (what, ", ".join("%d %s" % (many, name) for name, many in sorts.most_common())))
    told.count(count - len(wrong), ["%s: %s" % (what, line) for line in wrong])


def loader(told, folder):
    """The loader that was built; and that one without Unicorn compiles and runs nothing."""
    machine = Machine(told, folder, "cc")
    command = machine.built("loader", [HERE / "examples" / "loader.c"])
    if command:
        told.same("the loader without Unicorn", ended(command + [*PLUGIN, "63,64,93", "1000"]),
                  (20, b"", b"not run: this loader was built without Unicorn\n"))
    built = [str(OUT / "loader")]
    for words in [], ["63,,64", "9"], ["63,2048", "9"], ["63", "0"], ["63", "1000000001"], ["63", "9x"], ["63"]:
        told.same("the loader: wrong words", ended([*built, *PLUGIN, *words]), (2, b"", b"usage: loader IMAGE GRAPH CALLS STEPS\n"))
    if ended(built + [*PLUGIN, "63,64,93", "1"])[0] == 20:
        told.skip("runs of the loader", "it was built without Unicorn (libunicorn-dev)")
    else:
        loading.load_all(told, built, folder, 100)


def runs(told, folder):
    """The example `run`."""
    command = [str(OUT / "run")]
    told.same("run: wrong words", ended(command + PLUGIN), (2, b"usage: run IMAGE GRAPH SCRIPT INPUT STEPS\n", b""))
    running.run_all(told, command, folder, 200)


def has_cargo():
    """Whether there is a cargo that is not older than the crate's rust-version."""
    version = shutil.which("cargo") and re.match(rb"cargo (\d+)\.(\d+)", ended(["cargo", "--version"])[1])
    return bool(version) and tuple(map(int, version.groups())) >= (1, 77)


def rust(told, folder):
    """The crate's tests, and its host on the plugin and a hostile copy of it."""
    if not has_cargo():
        told.skip("the Rust crate", "there is no cargo from 1.77 on")
        return
    crate, options = HERE / "rust" / "rvcfi", dict(os.environ, CARGO_TARGET_DIR=str(OUT / "cargo"))
    status, out, err = ended(["cargo", "test", "--offline"], cwd=crate, env=options)
    counts = [tuple(map(int, each)) for each in re.findall(rb"(\d+) passed; (\d+) failed", out)]
    told.check("cargo test", status == 0 and sum(each[0] for each in counts) > 0, (out + err).decode(errors="replace"))
    hostile = Path(folder) / "hostile_for_rust"
    loading.hostile.main(*PLUGIN, hostile)
    copy = [str(hostile / ("01_bare_call" + end)) for end in (".img", ".graph")]
    host = ["cargo", "run", "-q", "--offline", "--example", "host", "--", "63,64,93", *PLUGIN, *copy, *VISITORS]
    told.same("the host in Rust", ended(host, cwd=crate, env=options)[:2], (1, HOSTED))


HOSTED = b"""plugin.img: accepted, code 1048576 data 268439552 shadow 65536 bytes, data end at 10001000, starts at 4000000c
01_bare_call.img: rejected Unit 40000238
visitors.img: not this list: the graph lists no system calls
"""


def compilers():
    """The compilers for C that are there."""
    return [name for name in ("gcc", "clang") if shutil.which(name)]


def in_place():
    """What a program runs under whose addresses are not drawn: at some of them older sanitizers stop."""
    words = ["setarch", os.uname().machine, "-R"]
    return words if shutil.which(words[0]) and ended(words + ["true"])[0] == 0 else []


def natively(told, folder):
    """All that is compiled, by each compiler."""
    for name in compilers():
        machine = Machine(told, folder, name, runner=in_place())
        for test in header, memory, threads, stack, bare, arenas, links:
            test(machine)
        machine.test("layout", VISITORS + PLUGIN, standard="c11")
        machine.test("bounds", VISITORS)
        machine.test("cost", [1, *VISITORS], heap=None)
    if shutil.which("musl-gcc"):
        machine = Machine(told, folder, "musl-gcc")
        machine.test("layout", VISITORS + PLUGIN, ["-static"], standard="c11")
    else:
        told.skip("linking with musl", "there is no musl-gcc")


def for_aarch64(told, folder):
    """The same for aarch64, under qemu."""
    if not (shutil.which("aarch64-linux-gnu-gcc") and shutil.which("qemu-aarch64") and (LIB / "aarch64" / "librvcfi_c.a").exists()):
        told.skip("aarch64", "it needs gcc-aarch64-linux-gnu, qemu-user and library/lib/aarch64")
        return
    symbols(told, LIB / "aarch64", "aarch64")
    machine = Machine(told, folder, "aarch64-linux-gnu-gcc", LIB / "aarch64", ["qemu-aarch64"])
    options = ["-static"]
    machine.test("memory", [0, *PLUGIN], options, heap=None)
    machine.test("ran", [*VISITORS, PLUGIN[1]], options, standard="c11", heap=None)
    machine.test("layout", VISITORS + PLUGIN, options, standard="c11")
    machine.test("bounds", VISITORS, options)
    machine.test("threads", [20, "accepted", *VISITORS, "accepted", *PLUGIN], ["-pthread", *options])
    stack(machine, options)
    bare(machine)
    ask = machine.built("ask", [HERE / "examples" / "ask.c"], options)
    if ask:
        changed_pairs(told, ask, None, 150, "changed pairs on aarch64")


def main():
    words = argparse.ArgumentParser(description=__doc__, formatter_class=argparse.RawDescriptionHelpFormatter)
    words.add_argument("--program", default=str(compare.PROGRAM))
    words.add_argument("--pairs", type=int, default=1000)
    options = words.parse_args()
    if not shutil.which("cc"):
        print("not run, since there is no cc: library/test.py")
        return 0
    if not (OUT / "ask").exists():
        sys.exit("library/out/ask is not there: library/build.sh")
    told, program = Told(), options.program if os.access(options.program, os.X_OK) else None
    if program is None:
        told.skip("comparing with the program", "%s is not built" % options.program)
    symbols(told, LIB, "this machine")
    with tempfile.TemporaryDirectory() as folder:
        is_the_tutorials(told, folder)
        natively(told, folder)
        shared(told, folder)
        words_of_ask(told, [str(OUT / "ask")], folder)
        changed_pairs(told, [str(OUT / "ask")], program, options.pairs, "changed pairs")
        loader(told, folder)
        runs(told, folder)
        rust(told, folder)
        for_aarch64(told, folder)
    return told.last_line()


if __name__ == "__main__":
    sys.exit(main())
