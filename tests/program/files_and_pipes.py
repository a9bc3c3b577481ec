#!/usr/bin/env python3
"""Runs the program on real files, pipes and faults, and compares status, text and files with what docs/COMMANDS.md says.

    python3 tests/program/files_and_pipes.py [--program PATH]

The program is crates/rvcfi/out/rvcfi where none is named, as `rt ci` or `rt run` leaves it. It needs Python 3.9 and Linux.
A case that this machine cannot set up (a file that root may not read, without a command to run as another user) is
told as skipped. The last line counts the cases, and the status is 1 where one failed.
"""

import os
import resource
import shutil
import signal
import struct
import subprocess
import sys
import tempfile
import threading
import time
from pathlib import Path

sys.dont_write_bytecode = True
sys.path.insert(0, str(Path(__file__).resolve().parents[2]))

from tests.model.hardener import Source
from tests.model.hardening import hardened_in
from tests.shared.command import Words
from tests.shared.elf import CODE_FLAGS, FUNC, PROGBITS, Section, symbol, with_tables, words as code_of
from tests.shared.forms import FORMS
from tests.shared.instructions import addi, jal, u_form
from tests.shared.paths import CRATES, ROOT
from tests.shared.units import CODE, OPENING, UNITS, image_file, prologue

ECALL = 0x00000073
LIMIT = 1 << 26  # bytes of a file at most
NOBODY = 65534
SECONDS = 60


def program_of(words):
    """An image of plain and system units that end with a stop, its graph, and the addresses of its units."""
    ends = UNITS[1] + 4 * len(words)
    code = struct.pack("<%dI" % (17 + len(words)), *prologue(UNITS[1]), *words, jal(0, ends, CODE))
    lines = ["rvcfi-graph 1", "code %08x %08x" % (CODE, len(code)), "call %08x %08x" % (OPENING, UNITS[1]), "end", ""]
    return image_file(code, b""), "\n".join(lines).encode()


def system_call(number):
    return [addi(17, 0, number), ECALL]


# puts 31000h bytes of data, which are zero, and exits with 0
MANY = 0x31000
PUTS = program_of([addi(10, 0, 1), u_form(0x37, 11, 0x10), u_form(0x37, 12, 0x31)] + system_call(64)
                  + [addi(10, 0, 0)] + system_call(93))
# reads at most 2,000 bytes of the input, puts them, and exits with their number modulo 256
ECHOES = program_of([addi(10, 0, 0), u_form(0x37, 11, 0x10), addi(12, 0, 2000)] + system_call(63)
                    + [addi(12, 10, 0), addi(10, 0, 1)] + system_call(64) + system_call(93))


def report(output, status, units):
    """The report of a run from the opening (10 instructions) through so many plain and system units to an exit."""
    walk = [OPENING] + [UNITS[1] + 4 * k for k in range(units)]
    lines = "\nstop exit %d\nsteps %d\nwalk %d\ntrail %s\n" % (
        status, 10 + units, len(walk), " ".join("%08x" % at for at in walk[-16:]))
    return b"output %d\n" % len(output) + output + lines.encode()


# an object whose main returns 7; the units of its code, which are the word, a return of five words and a stop
RETURNS = with_tables([Section(PROGBITS, code_of(addi(10, 0, 7), 0x00008067), CODE_FLAGS, align=4)], [],
                      symbol(1, FUNC, 1, 0), b"\0main\0")
HARDENED = [addi(10, 0, 7), 0xFF81BF83, 0xFF818193, 0x001F8463, 0xFB5FF06F, 0x000F8067, 0xFA9FF06F]
MAP = b"rvcfi-map 1\nat 40000040 0001 00000000\nat 40000044 0001 00000004\nat 40000058 0001 00000008\nend\n"
REWRITTEN = b"rewritten code 92 data 0 classes 0 sites 0\n"
USAGE = b"usage: rvcfi rewrite|verify|run|compare|demo|harden|link|compare-link\n"


def hardened_files():
    """The image, the graph and the map of that object."""
    code = struct.pack("<%dI" % (16 + len(HARDENED)), *prologue(UNITS[1]), *HARDENED)
    graph = b"rvcfi-graph 1\ncode 40000000 0000005c\ncall 4000000c 40000040\nend\n"
    return image_file(code, b""), graph, MAP


class Cases:
    def __init__(self, program, folder):
        self.program, self.folder = program, folder
        self.passed, self.failed, self.skipped = 0, [], []

    def path(self, name):
        return os.path.join(self.folder, name)

    def start(self, words, stdout=subprocess.PIPE, **options):
        return subprocess.Popen([self.program] + words, cwd=self.folder, stdin=subprocess.DEVNULL, stdout=stdout,
                                stderr=subprocess.PIPE, **options)

    def run(self, words, **options):
        """The status, the standard output and the standard error of the program on these words."""
        return ended(self.start(words, **options))

    def run_short_of(self, kind, more, words, content):
        """The same, where the program opens a named pipe first, gets no more than so much more of a resource while it
        waits there, and then reads this content from it. `more` tells the limit from the process's number."""
        child = self.start(words)
        pipe = opened_for(child, self.path("pipe"))
        if pipe is None:
            return ended(child)
        with pipe:
            amount = more(child.pid)
            resource.prlimit(child.pid, kind, (amount, amount))
            feeder = threading.Thread(target=feed, args=(pipe, [content]), daemon=True)
            feeder.start()
            feeder.join(SECONDS)
        return ended(child)

    def tell(self, what, got, want):
        if got == want:
            self.passed += 1
        else:
            self.failed.append(what)
            print("FAILED %s: %s, not %s" % (what, *(short(it) for it in (got, want))))

    def expect(self, what, words, status, text, **options):
        """The program ends in this way, and nothing goes to standard error."""
        self.tell(what, self.run(words, **options), (status, text, b""))

    def skip(self, what, why):
        self.skipped.append(what)
        print("skipped %s: %s" % (what, why))


def ended(child):
    """The status, the standard output and the standard error of a child, once it has ended."""
    try:
        out, err = child.communicate(timeout=SECONDS)
    except subprocess.TimeoutExpired:
        child.kill()
        out, err = child.communicate()
        return "no end", out, err
    return child.returncode, out, err


def short(it):
    text = repr(it)
    return text if len(text) < 300 else text[:200] + " .. " + text[-80:]


def limited(kind, amount):
    """What a child does before it runs the program: it gives itself less of something."""
    return lambda: resource.setrlimit(kind, (amount, amount))


def opened_for(child, path):
    """A named pipe, opened to write once the child reads it; None where the child ends or the time is up before."""
    deadline = time.monotonic() + SECONDS
    while child.poll() is None and time.monotonic() < deadline:
        try:
            number = os.open(path, os.O_WRONLY | os.O_NONBLOCK)
        except OSError:  # (nobody reads it yet)
            time.sleep(0.001)
            continue
        os.set_blocking(number, True)
        return open(number, "wb", buffering=0)
    return None


def feed(pipe, pieces):
    """Writes piece by piece, as long as somebody reads."""
    try:
        for piece in pieces:
            while piece:
                piece = piece[pipe.write(piece):]
    except BrokenPipeError:
        pass


def fed(path, pieces):
    """Writes to a named pipe from beside, piece by piece, and ends."""
    def write():
        with open(path, "wb", buffering=0) as pipe:
            feed(pipe, pieces)
    writer = threading.Thread(target=write, daemon=True)
    writer.start()
    return writer


def files_that_cannot_be_read(cases):
    for words in (["verify", "folder", "a.graph"], ["verify", "a.img", "folder"], ["run", "a.img", "a.graph", "folder", "none", "9"],
                  ["run", "a.img", "a.graph", "none", "folder", "9"]):
        cases.expect("a directory: " + " ".join(words), words, 3, b"read fault folder\n")
    cases.expect("no such file", ["verify", "absent", "a.graph"], 3, b"read fault absent\n")
    cases.expect("the first of two", ["verify", "absent", "folder"], 3, b"read fault absent\n")
    cases.expect("an empty name", ["verify", "", "a.graph"], 3, b"read fault \n")
    cases.expect("a link to nothing", ["verify", "dangling", "a.graph"], 3, b"read fault dangling\n")
    cases.expect("a link to itself", ["verify", "ring", "a.graph"], 3, b"read fault ring\n")
    cases.expect("a file as a folder", ["verify", "a.img/x", "a.graph"], 3, b"read fault a.img/x\n")
    long = "n" * 5000
    cases.expect("a name of 5,000 bytes", ["verify", "a.img", long], 3, b"read fault %s\n" % long.encode())
    cases.expect("a file whose first read fails", ["verify", "/proc/self/mem", "a.graph"], 3, b"read fault /proc/self/mem\n")
    unreadable(cases)


def other_user():
    """Options for a run as a user who is not root."""
    return {"user": NOBODY, "group": NOBODY, "extra_groups": []} if os.geteuid() == 0 else {}


def unreadable(cases):
    """A file whose mode lets nobody read it; root may read any, so the program runs as another user."""
    what, words = "an unreadable file", ["verify", "a.img", "closed"]
    try:
        cases.expect(what, words, 3, b"read fault closed\n", **other_user())
    except (PermissionError, OSError, subprocess.SubprocessError) as error:
        cases.skip(what, "another user cannot run the program here (%s)" % error)


def files_of_other_kinds(cases):
    image, graph = (open(cases.path(name), "rb").read() for name in ("a.img", "a.graph"))
    pieces = [image[k:k + 1000] for k in range(0, len(image), 1000)]
    for what, words, content, status, text in (
        ("an image from a named pipe", ["verify", "pipe", "a.graph"], pieces, 0, b"accepted\n"),
        ("a graph from a named pipe, a byte at a time", ["verify", "a.img", "pipe"], [graph[k:k + 1] for k in range(len(graph))], 0, b"accepted\n"),
        ("a named pipe that ends at once", ["verify", "pipe", "a.graph"], [], 1, b"refused 22 Short 0\n"),
        ("a named pipe that ends in the header", ["verify", "pipe", "a.graph"], [image[:231]], 1, b"refused 22 Short 231\n"),
        ("a named pipe that ends in the code", ["verify", "pipe", "a.graph"], [image[:4100]], 1, b"refused 22 Short 4100\n"),
        ("a named pipe that ends in the graph", ["verify", "a.img", "pipe"], [graph[:-1]], 1, b"refused 23 Graph 4 Form\n"),
        ("a script from a named pipe", ["run", "a.img", "a.graph", "pipe", "none", "0"], [b"rvcfi-script 1\nen", b"d\n"], 12,
         b"output 0\n\nstop limit\nsteps 0\nwalk 0\ntrail\n"),
    ):
        writer = fed(cases.path("pipe"), content)
        cases.expect(what, words, status, text)
        writer.join(1)
    cases.expect("a file without an end", ["verify", "/dev/zero", "a.graph"], 6, b"too long /dev/zero\n")
    cases.expect("a file of 2^26 bytes", ["verify", "most", "a.graph"], 1, b"refused 22 Byte 0\n")
    cases.expect("a file of 2^26 + 1 bytes", ["verify", "over", "a.graph"], 6, b"too long over\n")
    cases.expect("an empty device", ["verify", "/dev/null", "a.graph"], 1, b"refused 22 Short 0\n")
    cases.expect("one file as both", ["verify", "a.img", "a.img"], 1, b"refused 23 Graph 1 Form\n")
    cases.expect("a link to an image", ["verify", "link", "a.graph"], 0, b"accepted\n")
    cases.expect("names with spaces and newlines", ["verify", "an image\n", "a.graph"], 0, b"accepted\n")
    cases.expect("a name with a newline that is not there", ["verify", "no\nfile", "a.graph"], 3, b"read fault no\nfile\n")


DEMONSTRATION = b"""object 228872 functions 2000
image 192128 code 170928 classes 1 sites 455
run exit 198 steps 111335 walk 38359
compare same 1
"""


def words_of_other_kinds(cases):
    cases.expect("no words", [], 2, USAGE)
    cases.expect("words that are not text", ["verify", b"\xff\xfe", "a.graph"], 2, USAGE)
    cases.expect("words of thousands", ["verify"] * 3000, 2, USAGE)
    cases.expect("the version", ["--version"], 0, b"rvcfi 1.0.0\n")
    cases.expect("a file that is named as help is asked for", ["verify", "a.img", "-h"], 2, USAGE)
    cases.expect("such a file behind `--`", ["verify", "--", "a.img", "-h"], 3, b"read fault -h\n")
    cases.expect("a demonstration of no number", ["demo", "-1"], 2, USAGE)
    cases.expect("a demonstration", ["demo", "1"], 0, DEMONSTRATION)


def outputs_that_fail(cases):
    whole = ["verify", "a.img", "a.graph"]
    reader, writer = os.pipe()
    os.close(reader)
    # (a child of Python's begins with the signal for a broken pipe as the system has it)
    cases.expect("a closed pipe", whole, 4, None, stdout=writer)
    cases.expect("a closed pipe, rejected", ["verify", "a.img", "a.img"], 4, None, stdout=writer)
    os.close(writer)
    cases.expect("no standard output", whole, 4, b"", preexec_fn=lambda: os.close(1))
    with open("/dev/full", "wb") as full:
        cases.expect("a full device", whole, 4, None, stdout=full)
        cases.expect("a full device, usage", [], 4, None, stdout=full)
        cases.expect("a full device, after a read fault", ["verify", "absent", "a.graph"], 4, None, stdout=full)
    with open("a.img", "rb") as only_read:
        cases.expect("an output that may only be read", whole, 4, None, stdout=only_read)


def outputs_in_parts(cases):
    runs = ["run", "puts.img", "puts.graph", "none", "none", "100"]
    want = report(bytes(MANY), 0, 8)
    cases.expect("a report larger than a pipe", runs, 0, want)
    with open(cases.path("out"), "wb") as out:
        cases.expect("a file that takes 100,000 bytes", runs, 4, None, stdout=out, restore_signals=False,
                     preexec_fn=lambda: (signal.signal(signal.SIGXFSZ, signal.SIG_IGN), limited(resource.RLIMIT_FSIZE, 100000)()))
    with open(cases.path("out"), "rb") as out:
        cases.tell("what stands in that file", out.read(), want[:100000])
    reader, writer = os.pipe()
    os.set_blocking(writer, False)
    cases.expect("a pipe that would block", runs, 4, None, stdout=writer)
    os.close(writer)
    with os.fdopen(reader, "rb") as rest:
        got = rest.read()
    cases.tell("what stands in that pipe", got, want[:len(got)])
    echoed = bytes(range(256)) * 7
    writer = fed(cases.path("pipe"), [echoed[:1], echoed[1:1000], echoed[1000:]])
    cases.expect("an input from a named pipe, put again", ["run", "echoes.img", "echoes.graph", "none", "pipe", "100"],
                 0, report(echoed, 0, 11))
    writer.join(1)


def little_of_everything(cases):
    """Less memory leads to the usual answer or to status 5 with no text, and nothing between; no more open files to a fault."""
    words, zeros = ["verify", "pipe", "a.graph"], bytes(LIMIT)
    usual, none = (1, b"refused 22 Byte 0\n", b""), (5, b"", b"")
    seen = []
    for mib in (0, 1, 4, 16, 40, 64, 100, 500):
        def more(number):
            with open("/proc/%d/statm" % number) as sizes:
                return int(sizes.read().split()[0]) * resource.getpagesize() + (mib << 20)
        seen.append(cases.run_short_of(resource.RLIMIT_AS, more, words, zeros))
    rank = [it == usual for it in seen]
    cases.tell("little memory: the answers", [it for it in seen if it not in (usual, none)], [])
    cases.tell("little memory: the least and the most", (seen[0], seen[-1], rank == sorted(rank)), (none, usual, True))
    with open(cases.path("a.img"), "rb") as image:
        got = cases.run_short_of(resource.RLIMIT_NOFILE, lambda number: 3, words, image.read())
    cases.tell("no more open files", got, (3, b"read fault a.graph\n", b""))


def read_or_none(path):
    try:
        with open(path, "rb") as file:
            return file.read()
    except OSError:
        return None


def rewrites(cases, what, words, status, text, written, command=("rewrite",), whole=None, **options):
    """The program ends in this way, and of the image, the graph and the map those that are named are whole, and no other is
    there. What it wrote goes after that."""
    cases.expect(what, [*command] + words, status, text, **options)
    paths = [cases.path(word) for word in words[3:]]
    whole = whole or hardened_files()
    got = [None if os.path.isdir(path) or path.startswith("/dev") else read_or_none(path) for path in paths]
    cases.tell(what + ": the files", got, [whole[k] if k in written else None for k in range(3)])
    for path in paths:
        if os.path.isfile(path):
            os.remove(path)


def hardened_programs(cases):
    names = ["i", "g", "m"]
    rewrites(cases, "an object", ["b.o", "main", "none"] + names, 0, REWRITTEN, (0, 1, 2))
    rewrites(cases, "an object in a form", ["b.o", "main", "none"] + names, 0, REWRITTEN, (0, 1, 2), ("harden", "plain"))
    for form in FORMS:
        made = hardened_in(form, Source(RETURNS), "main")
        rewrites(cases, "an object in form " + form, ["b.o", "main", "none"] + names, 0, made.told(), (0, 1, 2), ("harden", form),
                 (made.image, made.graph, made.map))
    with open(cases.path("b.o"), "rb") as source, open(cases.path("own"), "wb") as copy:
        copy.write(source.read())
    rewrites(cases, "an object as its own image", ["own", "main", "none", "own", "g", "m"], 0, REWRITTEN, (0, 1, 2))
    with open(cases.path("i"), "wb") as old:
        old.write(bytes(100000))
    rewrites(cases, "a longer file in the image's place", ["b.o", "main", "none"] + names, 0, REWRITTEN, (0, 1, 2))
    writer = fed(cases.path("pipe"), [b"rvcfi-policy 1\nen", b"d\n"])
    rewrites(cases, "a policy from a named pipe", ["b.o", "main", "pipe"] + names, 0, REWRITTEN, (0, 1, 2))
    writer.join(1)
    writer = fed(cases.path("pipe"), [b"rvcfi-policy 1\n"])
    rewrites(cases, "a policy that ends early", ["b.o", "main", "pipe"] + names, 1, b"refused 18 Policy 2\n", ())
    writer.join(1)
    rewrites(cases, "a refused object", ["a.img", "main", "none"] + names, 1, b"refused 2 NotRelocatable 2\n", ())
    rewrites(cases, "no such object", ["absent", "main", "none"] + names, 3, b"read fault absent\n", ())
    rewrites(cases, "no such form", ["b.o", "main", "none"] + names, 2, USAGE, (), ("harden", "hart"))
    rewrites(cases, "one name for two", ["b.o", "main", "none", "i", "g", "i"], 2, USAGE, ())


def hardened_programs_that_are_not_written(cases):
    rewrites(cases, "no folder for the image", ["b.o", "main", "none", "nowhere/i", "g", "m"], 4, b"", ())
    rewrites(cases, "no folder for the graph", ["b.o", "main", "none", "i", "nowhere/g", "m"], 4, b"", (0,))
    rewrites(cases, "no folder for the map", ["b.o", "main", "none", "i", "g", "nowhere/m"], 4, b"", (0, 1))
    rewrites(cases, "a directory as the image", ["b.o", "main", "none", "folder", "g", "m"], 4, b"", ())
    rewrites(cases, "a full device as the image", ["b.o", "main", "none", "/dev/full", "g", "m"], 4, b"", ())
    rewrites(cases, "a full device as the map", ["b.o", "main", "none", "i", "g", "/dev/full"], 4, b"", (0, 1))
    with open("/dev/full", "wb") as full:
        rewrites(cases, "a full device as the output", ["b.o", "main", "none", "i", "g", "m"], 4, None, (0, 1, 2), stdout=full)
    what = "a folder that may not be written"
    try:
        rewrites(cases, what, ["b.o", "main", "none", "kept/i", "g", "m"], 4, b"", (), **other_user())
    except (PermissionError, OSError, subprocess.SubprocessError) as error:
        cases.skip(what, "another user cannot run the program here (%s)" % error)


CASES = (files_that_cannot_be_read, files_of_other_kinds, words_of_other_kinds, outputs_that_fail, outputs_in_parts, little_of_everything,
         hardened_programs, hardened_programs_that_are_not_written)


def lay_out(folder):
    data = str(CRATES / "rvcfi" / "data")
    for name in ("a.img", "a.graph"):
        shutil.copyfile(os.path.join(data, name), os.path.join(folder, name))
    os.chdir(folder)
    os.mkdir("folder")
    os.mkfifo("pipe")
    os.symlink("nothing", "dangling")
    os.symlink("ring", "ring")
    os.symlink("a.img", "link")
    shutil.copyfile("a.img", "an image\n")
    shutil.copyfile("a.graph", "closed")
    os.chmod("closed", 0)
    for name, size in (("most", LIMIT), ("over", LIMIT + 1)):
        with open(name, "wb") as out:
            out.truncate(size)
    os.mkdir("kept")
    with open("b.o", "wb") as out:
        out.write(RETURNS)
    for name, (image, graph) in (("puts", PUTS), ("echoes", ECHOES)):
        for end, content in ((".img", image), (".graph", graph)):
            with open(name + end, "wb") as out:
                out.write(content)


def state(folder):
    """What stands in the folder: names, kinds, sizes and the times of the last change. Two are written by the cases, and those
    that `rewrite` writes are removed again."""
    return {name: (it.st_mode, it.st_size, it.st_mtime_ns)
            for name in os.listdir(folder) if name not in ("out", "pipe") for it in [os.lstat(os.path.join(folder, name))]}


def main():
    program = Words(__doc__).parse_args().program
    with tempfile.TemporaryDirectory() as folder:
        os.chmod(folder, 0o755)
        copy = os.path.join(folder, "out")  # where any user may run it
        os.mkdir(copy)
        shutil.copy(program, copy)
        cases = Cases(os.path.join(copy, os.path.basename(program)), os.path.join(folder, "files"))
        os.mkdir(cases.folder)
        lay_out(cases.folder)
        before = state(cases.folder)
        for case in CASES:
            case(cases)
        cases.tell("the files after all", state(cases.folder), before)
        os.chdir(ROOT)
    skipped = ", %d skipped" % len(cases.skipped) if cases.skipped else ""
    print("program: %d passed, %d failed%s" % (cases.passed, len(cases.failed), skipped))
    sys.exit(1 if cases.failed else 0)


main()
