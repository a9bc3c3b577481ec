#!/usr/bin/env python3
"""Asks tools/explain.py of refusals, policies, an exploit, tables and images, of one object and of several that `link` joins, and
compares what it tells with other tools; by told.py, the scripts beside it of symbols, profiles and policies; and, by lean_explained.py, lean
images.

    python3 tests/real/explained.py [--program PATH]

The program is crates/rvcfi/out/rvcfi where none is named, as `rt ci` or `rt run` leaves it. It needs Python 3.9, Linux,
pyelftools, and gcc and binutils for RISC-V; where one of these is missing nothing is run, and it says so. What is looked for
is known from the sources, or is what readelf, nm and rvcfi's own files have. The last line counts what was asked, and the
status is 1 where one failed.
"""

import os
import re
import subprocess
import sys
import tempfile
from pathlib import Path

sys.dont_write_bytecode = True
sys.path.insert(0, str(Path(__file__).resolve().parents[2]))

from tests.real import lean_explained, told
from tests.real.attack import ATTACKS
from tests.real.pitfalls import CHANCES, LABELS, MACHINE, NO_ZEROS, Bench, policy_of
from tests.real.refusals import PLAIN, compiled, many_sections
from tests.shared import programs
from tests.shared.command import Words
from tests.shared.forms import FORMS, is_apart, is_for_harts, is_lean
from tests.shared.paths import ROOT
from tests.shared.programs import Hardened, Linked
from tools.sysroot import compilers
from tools.sysroot.compilers import Missing

NOTHING = "Nothing that hardening does not refuse is known to end a run.\n"
TOOL = str(ROOT / "tools" / "explain.py")
CYCLES = "int main(void) { long t; __asm__ volatile(\"rdcycle %0\" : \"=r\"(t)); return t; }"
LONE_LOW = r"""int main(void)
{
    __asm__ volatile("1: .reloc 1b, R_RISCV_TLS_GOT_HI20, q\n\tauipc t0, 0\n\tlw t0, %%pcrel_lo(1b)(t0)" : : : "t0");
    return 0;
}"""
POINTERS = """int g(int); __attribute__((weak)) int f(int n) { return n; } static int own(int n) { return n + 1; }
int (*volatile p)(int); int main(int n) { p = n ? f : g; return p(n) + (p = own)(n); }"""
POINTED = """int f(int n) { return n + 2; } static int own(int n) { return n + 3; }
int (*volatile q)(int) = own; int g(int n) { return q(n); }"""
CALLS = "int f(void), g(void); extern int n; int h(void) { return g(); } int main(void) { return f() + h() + n; }"


def python_with_elftools():
    """A Python that has pyelftools: this one, or the system's, to which Debian's package adds it."""
    for python in (sys.executable, "/usr/bin/python3"):
        if os.access(python, os.X_OK) and not compilers.run([python, "-c", "import elftools"]).returncode:
            return python
    raise Missing("pyelftools (apt-get install python3-pyelftools)")


class Asked:
    """The script's answers, and what of them was looked for in vain."""

    def __init__(self, tool, folder):
        self.python, self.script = python_with_elftools(), TOOL
        self.compiler = compilers.gcc()
        self.bench = Bench(tool, folder, self.compiler)
        self.tool, self.folder, self.count, self.failed = tool, folder, 0, []

    def told(self, *words, given=b""):
        return self.made(TOOL, *words, given=given)

    def made(self, *words, given=b""):
        """What a script prints, or what it ends with where it could not do its work."""
        done = compilers.run([self.python, *words], given)
        return "status %d: %s" % (done.returncode, done.stderr.decode()) if done.stderr else done.stdout.decode()

    def ended(self, *words):
        """The status of a script that is given no answer."""
        return compilers.run([self.python, *words]).returncode

    def has(self, what, text, *wanted):
        for part in wanted:
            self.same("%s has %r" % (what, part), part in text, True, text)

    def same(self, what, got, wanted, text=""):
        self.count += 1
        if got != wanted:
            self.failed.append("FAILED explained, %s: %.300r, not %.300r\n%s" % (what, got, wanted, text))

    def source(self, text, *more, without=()):
        """The object of a source in C."""
        return compiled(self.bench.compiler, text, without, list(more), self.bench.new(".o"))

    def new_files(self):
        """Names for an image, a graph and a map."""
        return [self.bench.new(end) for end in (".img", ".graph", ".map")]

    def refusal(self, path, *wanted, entry="main", policy="none"):
        files = [path + end for end in (".img", ".graph", ".map")]
        answer = self.bench.asked.answer("rewrite", path, entry, policy, *files)
        self.explained([path], answer, wanted, policy)

    def explained(self, paths, answer, wanted, policy):
        more = ["--policy", policy] if policy != "none" else []
        self.has(answer.strip(), self.told("refusal", *paths, *more, given=answer.encode()), answer.strip(), "What to do: ", *wanted)

    def linked(self, paths, entry="main", policy="none"):
        """The answer of `link`, and its files."""
        files = self.new_files()
        return self.bench.asked.answer("link", "plain", entry, policy, *files, *paths), files

    def refused_link(self, paths, start, *wanted, entry="main", policy="none"):
        answer = self.linked(paths, entry, policy)[0]
        self.same("a link", answer[:len(start)], start, answer)
        self.explained(paths, answer, wanted, policy)


def of_refusals(asked):
    """Ten objects that are refused, and a file that is none."""
    product = asked.source("int main(int n, char **words) { return n * **words; }")
    asked.refusal(asked.source(PLAIN, without=MACHINE), "compressed instructions", "registers for double")
    asked.refusal(asked.bench.case("macros.c", ["-g3"]), "of type GROUP", "The group is that of " + group_name(asked))
    asked.refusal(asked.bench.case("anchors.c"), ".LANCHOR1", "at 1000", "past the end of .rodata")
    asked.refusal(asked.source(CYCLES), ": main+0", "rdcycle")
    asked.refusal(asked.bench.case("aligned.c", ["-falign-functions=16"]), "a zero word")
    asked.refusal(asked.source("int main(void) { __asm__(\"mv t6, a0\"); return 0; }"), ": main+0", "x31 (t6)", "mv t6,a0")
    asked.refusal(asked.source("int g(int); int main(void) { return g(g(3)) + 1; }", "-msave-restore"), ": main+0", "__riscv_save_0")
    asked.refusal(asked.source(LONE_LOW), "It completes main+0", "TLS_GOT_HI20 q")
    asked.refusal(product, "__muldi3 (symbol", "Undefined are 1 in all", "main+")
    asked.refusal(asked.source(PLAIN + " char *p = (char *)main + 2;"), "It points to main+2", "In .sdata")
    asked.refusal(asked.source(PLAIN), "Functions that all files see: main.", entry="start")
    asked.refusal(asked.source("char a[268000000]; int main(void) { return a[5]; }"), "268000000 bytes  a")
    policy = asked.bench.asked.file("wrong.policy", b"rvcfi-policy 1\nsite main+0 nothing+0 main+2\nend\n")
    asked.refusal(asked.source(PLAIN), "Line 2: site main+0", "no symbol has this name", "no instruction starts there", policy=policy)
    asked.refusal(programs.source("memory.c"), "cannot be read")
    asked.has("no refusal", asked.told("refusal", product, given=b"rewritten code 1"), "Nothing was refused")


def group_name(asked):
    lines = compilers.must([compilers.binutils("readelf"), "-gW", asked.bench.case("macros.c", ["-g3"])]).decode()
    return re.search(r"COMDAT group section .* \[(\S+)\]", lines).group(1)


def of_undefined(asked):
    """All undefined names, as nm lists them."""
    path = asked.source(CALLS)
    names = compilers.must([compilers.binutils("nm"), "-u", path]).decode().split()[1::2]
    asked.refusal(path, "Undefined are %d in all" % len(names), *("    %s " % name for name in names))


def of_policies(asked):
    """The lines of three policies that change nothing, and a line that does."""
    path = asked.bench.case("chances.c", ["-fno-inline"])
    apart = CHANCES[0].replace("add+0 take+0 ", ""), CHANCES[1]
    rows = [("the second alone", CHANCES[1:], {2}, "by_wide+"), ("both", CHANCES, {2, 3}, "those of other lines"),
            ("all that it reaches", [CHANCES[0]], {2}, "all that the site reaches anyway"), ("two that share nothing", apart, set(), "")]
    for number, (what, lines, idle, why) in enumerate(rows):
        policy = policy_of(asked.bench, path, list(lines))
        os.rename(policy, policy + str(number))
        files = [path + end for end in (".img", ".graph", ".map")]
        asked.bench.asked.answer("rewrite", path, "main", policy + str(number), *files)
        text = asked.told("graph", path, files[1], files[2], "--policy", policy + str(number))
        found = {int(found) for found in re.findall(r"line (\d+) of the policy changes nothing", text)}
        asked.same("a policy, " + what, found, idle, text)
        asked.has("a policy, " + what, text, *([why] if why else []))
        asked.same("a policy's classes, " + what, "not the classes" in text, False, text)
    asked.has("another policy", asked.told("graph", path, files[1], files[2]), "These are not the classes")


def of_names(asked):
    """An entry that is a static function, while a global one of its name is there."""
    path = asked.bench.joined(asked.bench.case("second_name.c"), asked.bench.case("first_name.c"))
    files = [path + end for end in (".img", ".graph", ".map")]
    asked.bench.asked.answer("rewrite", path, "begin", "none", *files)
    text = asked.told("graph", path, files[1], files[2], "--entry", "begin")
    asked.has("an entry", text, "the name begin stands for a static symbol, while a global one of that name is there")
    asked.same("no such name", "stands for" in asked.told("graph", path, files[1], files[2], "--entry", "kept"), False)


def of_refused_objects(asked):
    """Objects of several that are refused alone, each by its number."""
    plain = asked.source(PLAIN)
    asked.refused_link([plain, asked.source(PLAIN, without=MACHINE)], "refused 4 Flags 5 in 2\n", "Object 2 is ", "compressed instructions")
    asked.refused_link([plain, plain, asked.bench.case("anchors.c")], "refused 8 BadSymbol", " in 3\n", "Object 3 is ", ".LANCHOR1",
                       "past the end of .rodata")
    asked.refused_link([plain, programs.source("memory.c")], "refused 1 NotElf in 2\n", "memory.c cannot be read")
    asked.has("no such object", asked.told("refusal", plain, given=b"refused 4 Flags 5 in 2"), "There is no object 2 here")


def of_refused_links(asked):
    """Refusals of what several objects come to as one."""
    plain, product = asked.source(PLAIN), asked.source("int f1(int n, char **words) { return n * **words; }")
    cycles, wide = asked.source(CYCLES), asked.source("char a[268000000];", "-fcommon")
    one, two = (asked.source("int both = %d; int f%d(void) { return both; }" % (n, n)) for n in (1, 2))
    policy = asked.bench.asked.file("several.policy", b"rvcfi-policy 1\nsite main+0 f1+0 f2+0 main+2\nend\n")
    asked.refused_link([one, cycles], "refused 9 Undecodable ", " of %s (section " % cycles, " main+0", "rdcycle")
    asked.refused_link([plain, product], "refused 15 Undefined ", " in 2\n", "Object 2 is ", " of %s, global" % product, "    __muldi3  ")
    weak = asked.source(PLAIN + " __attribute__((weak)) int both = 3;")
    asked.refused_link([weak, one, two], "refused 27 Duplicate both\n", "The name is defined 2 times:",
                       "    in object 2: both (symbol ", "    in object 3: both (symbol ")
    asked.refused_link([plain, one], "refused 17 NoEntry\n", "Functions that all files see: f1, main.", entry="f2")
    asked.refused_link([plain, one], "refused 18 Policy 2\n", "no symbol has this name", "no instruction starts there", policy=policy)
    asked.refused_link([asked.source("char a[9];" + PLAIN, "-fcommon"), wide], "refused 20 DataTooLarge ",
                       "\n     268000000 bytes  a\n             0 bytes  a\n")


def of_many_sections(asked):
    """Three times an object of 22,000 sections and more."""
    path, count = many_sections(asked.bench.asked, asked.compiler)
    asked.refused_link([path] * 3, "refused 28 TooManySections %d\n" % (3 * count), "With %s there are %d" % (path, 3 * count),
                       "  %d sections  %s" % (count, path))


def of_pitfalls(asked):
    """What is hardened without a refusal and may end a run, a row a warning; of what mends it, and of plain programs, there is none."""
    taken = ": its address is taken at %s, and no computed jump or call may go there: "
    case = asked.bench.case
    asked.has("no type", asked.told("object", case("untyped.s")), "handler+0" + taken % "pointer+0" + "no function starts there (`.type handler,")
    unsized = "main, behind which it is, has no `.size`\n"
    asked.has("no size", asked.told("object", case("unsized.s")), "one+0" + taken % "table+0" + unsized, "two+0" + taken % "table+4" + unsized)
    asked.has("alignment", asked.told("object", case("tagged.c", NO_ZEROS)), ".text (section 1) is aligned at 16, and hardened code at 4")
    asked.has("distances", asked.told("object", case("distances.s")), "short+0: main+bc (last) - main+1c (first) in 8 bits",
              "main+bc (last)" + taken % "long+0" + "main, in which it is, has no computed jump\n")
    mended = [case(name, more) for name, more in LABELS]
    for path in mended + [case("tables.c", ["-fno-gcse"]), case("aligned.c")]:
        asked.same("no warning", asked.told("object", path), NOTHING)
    for program in programs.PROGRAMS:
        paths = programs.objects_of(asked.compiler, "-O2", program, asked.folder)
        asked.same("no warning of " + program.name, asked.told("object", *paths), NOTHING)


def of_links(asked):
    """Pointers to functions of other objects, also by the table of addresses: of two functions of a name the one that is not weak is
    meant, and each file's own are its own."""
    for more, without in ([], []), (["-fpic"], ["-fno-pic"]):
        paths = [asked.source(text, *more, without=without) for text in (POINTERS, POINTED)]
        files = asked.linked(paths)[1]
        text, listing = asked.told("graph", *paths, *files[1:]), asked.told("image", *paths, *files)
        starts = {name: re.findall("^%s:\n(.{8})  gate" % name, listing, re.M) for name in ("f", "g", "own")}
        wanted = [("f", starts["f"][-1:]), ("g", starts["g"]), ("own", starts["own"])]
        found = re.findall(r"^    to   (.{8})  function       (\w+)$", text, re.M)
        asked.same("a link's targets", sorted(found), sorted((at, name) for name, each in wanted for at in each), text)
        asked.same("how many", [len(each) for _, each in wanted], [1, 1, 2], listing)
        asked.same("a link's classes", "not the classes" in text or text.startswith("status"), False, text)
        asked.has("other objects", asked.told("graph", *paths[::-1], *files[1:]), "These are not the classes that the objects come to")


def of_linked_names(asked):
    """An entry that all files share, while a static function of its name is there."""
    paths = [asked.bench.case("first_name.c"), asked.bench.case("second_name.c")]
    files = asked.linked(paths, "begin")[1]
    text = asked.told("graph", *paths, *files[1:], "--entry", "begin")
    asked.has("an entry of several", text, "the name begin stands for the symbol that all files share", "begin (symbol ",
              " of %s, global, at 0 in section " % paths[1])
    paths = [asked.bench.case("first_name.c", ["-Dkept=%s" % name]) for name in ("one", "two")]
    files = asked.linked(paths, "begin")[1]
    text = asked.told("graph", *paths, *files[1:], "--entry", "begin")
    asked.has("an entry of several static ones", text, "the first of 2 static symbols: begin (symbol ", " of %s, local, " % paths[0])


def hardened_programs(asked):
    """The programs of this folder at -O2, hardened."""
    for program in programs.PROGRAMS:
        yield program, Hardened(asked.tool, programs.joined(asked.compiler, "-O2", program, asked.folder))


def linked_program(asked, program, form):
    """The same, joined by `link`."""
    objects = programs.objects_of(asked.compiler, "-O2", program, asked.folder)
    return Linked(asked.tool, objects, os.path.join(asked.folder, program.name + form), form)


def objects(made):
    return made.objects if isinstance(made, Linked) else [made.object]


def gate(asked, made, name):
    """The address of a function in the image."""
    if not isinstance(made, Linked):
        return made.gate(name)
    listing = asked.told("image", *objects(made), made.image, made.graph, made.map)
    return int(re.search("^%s:\n(.{8})  " % name, listing, re.M).group(1), 16)


def of_exploit(asked, made):
    """The exploits of docs/TUTORIAL.md: the site that failed, in names."""
    wanted = {
        "return": ["in __cfi_bad_return: what failed is take_message+", "ret"],
        "pointer": ["in __cfi_bad_target: what failed is main+", "computed call of class 00001",
                    "may go to: greet_politely, greet_briefly."],
    }
    for attack, parts in wanted.items():
        given = ATTACKS[attack](gate(asked, made, "open_door"))
        report = made.asked(["run", made.image, made.graph, "none", made.input_file(given), programs.STEPS])[1]
        asked.has(attack, asked.told("report", *objects(made), made.graph, made.map, given=report), *parts)
        untame = made.compared(given)[1]
        asked.has(attack + ", compared", asked.told("report", *objects(made), made.graph, made.map, given=untame),
                  "own run leaves", "take_message+" if attack == "return" else "main+")


def of_harts(asked, program, made):
    """The same image for several harts, and a run in which hart 1 takes five steps first, within the opening."""
    made = Hardened(asked.tool, made.object, "harts")
    of_image(asked, program, made)
    script = asked.bench.asked.file("two.script", b"rvcfi-script 2\nharts 2\nturn 1 5\nend\n")
    given = made.input_file(ATTACKS["return"](made.gate("open_door")))
    report = made.asked(["run", made.image, made.graph, script, given, programs.STEPS])[1]
    asked.has("several harts", asked.told("report", made.object, made.graph, made.map, given=report), " steps, 2 harts\n",
              "Hart 1 began 1 units; the last of them, the newest at the end:\n    4000000c  the opening\nHart 0 ended the run:\n",
              "in __cfi_bad_return: what failed is take_message+")


def of_system_calls(asked, made):
    """Who calls the system, by what start.s has."""
    text = asked.told("graph", *objects(made), made.graph, made.map)
    asked.has("system calls", text, "ecall: 4 (_start 1, leave 1, read_input 1, write_output 1)", "ebreak: 2 (_start 1, leave 1)")
    lines = asked.told("graph", *objects(made), made.graph, made.map, "--dot").splitlines()
    for line in ('    "main" -> "take_message";', '    "the opening" -> "_start";', '    "class 00001" -> "greet_briefly" [style=bold];',
                 '    "main" -> "class 00001" [style=bold, label=call];'):
        asked.same("a line for Graphviz", line in lines, True, "\n".join(lines))


def of_lists(asked, program, made):
    """Guarded system calls: their numbers by function, the units of an image, and what halts one."""
    text = asked.told("graph", *objects(made), made.graph, made.map)
    calls = "system call 63: read_input 1\nsystem call 64: write_output 1\nsystem call 93: _start 1, leave 1\n"
    asked.has("numbers of system calls", text, calls + "no list; one with which all of these are made: calls 63 64 93")
    listed = Hardened(asked.tool, made.object, policy=programs.policy_file(programs.CALLS, asked.bench.new(".policy")))
    text = asked.told("graph", listed.object, listed.graph, listed.map, "--policy", listed.policy)
    asked.has("a list", text, calls + "the list: calls 63 64 93\n")
    asked.same("a list's classes", "not the classes" in text, False, text)
    listing = asked.told("image", listed.object, listed.image, listed.graph, listed.map)
    found = re.findall(r"^[0-9a-f]{8}  guarded call +(\S+)\+\S+ +ecall +(.*)$", listing, re.M)
    asked.same("guarded calls", sorted(found), [(name, "system calls 63 64 93") for name in ("_start", "leave", "read_input", "write_output")],
               listing)
    asked.same("no bare call", re.findall(r"^[0-9a-f]{8}  system .* ecall$", listing, re.M), [], listing)
    halted = Hardened(asked.tool, made.object, policy=programs.policy_file((63, 93), asked.bench.new(".policy")))
    report = halted.asked(["run", halted.image, halted.graph, "none", halted.input_file(program.input), programs.STEPS])[1]
    asked.has("halted by a list", asked.told("report", halted.object, halted.graph, halted.map, given=report),
              "in __cfi_bad_target: what failed is write_output+", "ecall: the number of its system call is not in the list",
              "It is a system call, whose number may be 63 or 93.")
    asked.has("compared under a list", asked.told("report", halted.object, halted.graph, halted.map, given=halted.compared(program.input)[1]),
              "own run leaves", "write_output+", "whose number is not in the list")
    asked.has("another list", asked.told("graph", halted.object, halted.graph, halted.map),
              "system call 64: write_output 1, which is not in the list", "the list: calls 63 93\n")


def of_wrong_lists(asked):
    """Lists that are refused."""
    path = asked.source(PLAIN)
    for line in ("calls 93 64", "calls 2048", "calls 064", "site main+0"):
        policy = asked.bench.asked.file("list.policy", b"rvcfi-policy 2\n%s\nend\n" % line.encode())
        asked.refusal(path, "Line 2: " + line, "1 to 8 numbers from 0 to 2047", policy=policy)


def of_tables(asked):
    """Labels and functions in one class: the labels of the table and the functions of the other. Where calls have a class of their
    own the functions alone are in it."""
    path = asked.bench.case("tables.c", ["-fno-gcse"])
    asked.same("tables", asked.bench.ends(path), asked.bench.host("tables.c"))
    text = asked.told("graph", path, path + ".graph", path + ".map")
    asked.has("tables", text, "class 00001: 9 targets (3 functions, 6 labels)", "negate", "half", "next", "label          interpreted+")
    asked.same("tables' classes", "not the classes" in text, False, text)
    files = [path + end for end in (".img", ".graph", ".map")]
    asked.bench.asked.answer("harden", "split", path, "main", "none", *files)
    text = asked.told("graph", path, *files[1:])
    asked.has("tables apart", text, "2 classes (1 of calls, 1 of jumps)",
              "class 00001 of calls: 3 targets (3 functions, 0 labels), 1 sites", "class 00002 of jumps: 9 targets (3 functions, 6 labels)")
    asked.same("tables' classes apart", "not the classes" in text, False, text)
    dot = asked.told("graph", "--dot", path, *files[1:])
    asked.has("tables apart, for Graphviz", dot, "class 00002 of jumps\\n9 targets")


def of_image(asked, program, made):
    """The units of an image, and the lines of its graph."""
    listing = asked.told("image", *objects(made), made.image, made.graph, made.map)
    graph = [line.split() for line in open(made.graph)]
    units = re.findall(r"^([0-9a-f]{8})  (\S+(?: \S+)*)  ", listing, re.M)
    kinds = {"computed call": "site", "computed jump": "site", "branch": "edge", "near branch": "edge", "jump": "edge", "call": "call",
             "opening": "call"}
    for kind in ("site", "edge", "call"):
        found = [address for address, unit in units if kinds.get(unit) == kind]
        asked.same("%s, %s, %s" % (program.name, made.form, kind), found, [line[1] for line in graph if line[0] == kind])
    gates = {address for address, unit in units if unit == "gate"}
    behind = {"class": 0, "callclass": 8, "jumpclass": 0} if is_lean(made.form) else {"class": 0, "callclass": 0, "jumpclass": 4}
    wanted = {"%08x" % (int(target, 16) + behind[line[0]]) for line in graph if line[0] in behind for target in line[2:]}
    asked.same("%s, %s, gates" % (program.name, made.form), gates, wanted)
    checks = re.findall(r"^[0-9a-f]{8}  computed (call|jump)  .*?(by the (?:second|third) word|$)", listing, re.M)
    word = ("call", "by the third word") if is_lean(made.form) else ("jump", "by the second word" * is_apart(made.form))
    asked.same("%s, %s, words" % (program.name, made.form), checks, [(kind, word[1] if kind == word[0] else "") for kind, _ in checks])
    texts = set(re.findall(r"^[0-9a-f]{8}  (system|return) .* (\S+)$", listing, re.M))
    asked.same(program.name + ", instructions", texts, {("system", "ecall"), ("system", "ebreak"), ("return", "ret")})
    text = asked.told("graph", *objects(made), made.graph, made.map)
    asked.same(program.name + ", classes", "not the classes" in text or text.startswith("status"), False, text)


def of_strange_names(asked):
    """Names are an object's own: nothing that a terminal would act on is printed."""
    path = renamed(asked, "void strange_one(void); int main(void) { strange_one(); return 0; }", b"strange\033[1m")
    answer = asked.bench.asked.answer("rewrite", path, "main", "none", *(path + end for end in (".img", ".graph", ".map")))
    told = asked.told("refusal", path, given=answer.encode())
    asked.has("a strange name", told, "strange?[1m")
    asked.same("a strange name, unprintable", "\033" in told, False)
    paths = [renamed(asked, "int strange_one = %d;" % each, b"s\xff \n\033[1m go") for each in (1, 2)]
    files = [path + end for end in (".img", ".graph", ".map")]
    answer = compilers.run([asked.tool, "link", "plain", "main", "none", *files, *paths]).stdout
    asked.same("a strange duplicate", answer, b"refused 27 Duplicate s\xff \n\033[1m go\n")
    told = asked.told("refusal", *paths, given=answer)
    asked.has("a strange duplicate", told, "Duplicate s? ??[1m go\n", "    in object 2: s? ??[1m go (symbol ")


def renamed(asked, text, name):
    """The object of a source, with another name in place of `strange_one`."""
    path = asked.source(text)
    with open(path, "rb") as file:
        content = file.read().replace(b"strange_one", name)
    return asked.bench.asked.file(os.path.basename(path), content)


def of_missing(asked):
    """Where pyelftools is missing, how to get it."""
    done = subprocess.run([sys.executable, "-E", "-s", "-S", TOOL, "graph"], stdout=subprocess.PIPE, stderr=subprocess.PIPE, check=False)
    asked.same("no pyelftools", (done.returncode, b"apt-get install python3-pyelftools" in done.stderr), (1, True))


def of_others(asked, program, made):
    """What is told of the program by debugging information, and by the other scripts."""
    told.of_statuses(asked, made, program)
    told.of_whole_lines(asked, made)
    told.of_lines(asked, program)
    linked = linked_program(asked, program, "plain")
    told.of_symbols(asked, linked)
    for attack in ATTACKS.values():
        told.of_refused(asked, linked, attack(linked.gate("open_door")), linked.gate("open_door"))
    for form in [each for each in FORMS if is_for_harts(each) and not is_lean(each)]:
        told.of_profile(asked, program, linked_program(asked, program, form))


def try_all(asked):
    for part in (of_refusals, of_undefined, of_policies, of_wrong_lists, of_names, of_tables, of_strange_names, of_refused_objects, of_refused_links,
                 of_many_sections, of_pitfalls, of_links, of_linked_names, of_missing, told.of_sites, told.of_numbers, told.of_variables,
                 told.of_typed, told.of_narrowed, lean_explained.of_entries):
        part(asked)
    for program, made in hardened_programs(asked):
        of_image(asked, program, made)
        for form in filter(is_apart, FORMS):
            of_image(asked, program, Hardened(asked.tool, made.object, form))
            if is_for_harts(form):
                of_image(asked, program, linked_program(asked, program, form))
        lean_explained.of_programs(asked, program, made.object, of_image)
        told.of_labels(asked, made)
        told.of_profile(asked, program, linked_program(asked, program, "plain"))
        if program.name == "visitors":
            of_harts(asked, program, made)
            of_lists(asked, program, made)
            of_others(asked, program, made)
            for each in (made, linked_program(asked, program, "plain")):
                of_exploit(asked, each)
                of_system_calls(asked, each)


def main():
    words = Words(__doc__)
    options = words.parse_args()
    with tempfile.TemporaryDirectory() as folder:
        try:
            compilers.binutils("objdump")
            compilers.tool("gcc", "cc", "clang")
            asked = Asked(options.program, folder)
        except Missing as what:
            print("not run, since there is no %s: tests/real/explained.py" % what)
            return 0
        try_all(asked)
    print("\n".join(asked.failed + ["%d passed, %d failed" % (asked.count - len(asked.failed), len(asked.failed))]))
    return 1 if asked.failed else 0


if __name__ == "__main__":
    sys.exit(main())
