"""What tools/explain.py tells by debugging information and of system calls, and what symbols.py, profile.py and policy.py beside it make.

For tests/real/explained.py. What is looked for is what addr2line, nm, objdump, qemu and the runs of rvcfi have, or is told here by hand
from the sources.
"""

import os
import re
import shlex

from tests.shared import programs
from tests.shared.paths import ROOT
from tests.shared.programs import Hardened, Linked
from tools.sysroot import compilers
from tools.sysroot.compilers import Missing

SYMBOLS, PROFILE, POLICY = (str(ROOT / "tools" / name) for name in ("symbols.py", "profile.py", "policy.py"))
ABSENT = "not run, since there is no %s: lines and policies of objects of %s"
VARIABLES = ["byte", "word", "zeroed", "table", "common_one", "common_two", "shared_zeroed", "shared_text"]
WORDS = {  # the words of docs/MACHINE.md that begin what each column counts, and how many of it a run takes that goes where it may
    "masks": (0x024F9F93, 3), "calls": (0x03019F13, 6), "returns": (0xFF81BF83, 3), "checks": (0xFFCFFF93, 10),
}
ONE, TWO, ACT, TEST = {"next", "opposite"}, {"sum", "difference", "product"}, {"twice", "three"}, {"odd", "even"}
TABLE, NEAR, MORE = {"sum", "difference"}, {"next", "before"}, {"rising", "falling"}
REACHED = {  # of cases/typed.c: by the function that a computed call or jump is in what it may reach
    "by_parameter": ONE, "by_tail": ONE, "by_union": ONE, "by_result": ONE, "by_stack": ONE,
    "by_member": TWO, "by_inner": TWO, "by_variable": TWO, "by_loop": TWO, "by_element": ACT, "by_row": ACT,
    "by_table": TABLE, "by_rows": TEST, "by_choice": TEST,
}
EMBEDDED = {  # of cases/embedded.c
    "by_base": NEAR, "by_holder": NEAR, "by_pointers": NEAR, "by_value": NEAR, "by_made": NEAR, "by_list": NEAR, "by_stack": NEAR,
    "by_whole": TABLE, "by_anything": TABLE, "by_order": MORE,
}
UNTOLD = {"by_number", "by_old"}
LOST = {"by_holder"}  # which clang's debugging information does not tell above -O0
TYPED = ["-fno-section-anchors"]  # gcc's alone
AT = re.compile(r" at (\S+:\d+)$", re.M)


def of_statuses(asked, made, program):
    """Behind a pipe the script ends as rvcfi did."""
    given = made.input_file(program.input)
    listed = Hardened(asked.tool, made.object, policy=programs.policy_file((63, 93), asked.bench.new(".policy")))
    for wanted, of, command, words in [*refusing(asked, made), *reporting(made, listed, given)]:
        files = [of.object] if command == "refusal" else [of.object, of.graph, of.map]
        line = "%s | %s" % (shlex.join([asked.tool, *words]), shlex.join([asked.python, asked.script, command, *files]))
        got = compilers.run([asked.tool, *words]).returncode, compilers.run(["sh", "-c", line]).returncode
        asked.same("the status of " + " ".join(words), got, (wanted, wanted))
    asked.same("the status of no answer", asked.ended(asked.script, "refusal", made.object), 4)


def refusing(asked, made):
    """Of what is hardened and refused the status, the program, and the words."""
    missing, long = asked.bench.new(".missing"), asked.bench.new(".long")
    with open(long, "wb") as file:
        file.truncate(2**26 + 1)
    for status, path, entry in ((0, made.object, "_start"), (1, made.object, "nothing"), (3, missing, "_start"), (6, long, "_start")):
        yield status, made, "refusal", ["rewrite", path, entry, "none", *asked.new_files()]
    yield 2, made, "refusal", ["rewrite"]


def reporting(made, listed, given):
    """The same of what verify, run and compare print."""
    for status, of, graph in ((0, made, made.graph), (1, made, listed.graph)):
        yield status, of, "report", ["verify", of.image, graph]
    for status, of, steps in ((0, made, "1000000"), (12, made, "9"), (10, listed, "1000000")):
        yield status, of, "report", ["run", of.image, of.graph, "none", given, steps]
    for status, of, steps in ((0, made, "1000000"), (12, made, "9"), (13, listed, "1000000")):
        yield status, of, "report", ["compare", of.object, "_start", of.policy, of.image, of.map, given, steps]


def of_whole_lines(asked, made):
    """An answer that is no refusal is told whole."""
    answer = made.told[1]
    asked.has("a whole line", asked.told("refusal", made.object, given=answer), "Nothing was refused: " + answer.decode())


def of_lines(asked, program):
    """Files and lines of sites, targets and trails, as addr2line has them; and the same text without them where there are none."""
    for compiler in programs.compilers_here(ABSENT):
        plain, debugged = (linked(asked, compiler, program, more) for more in ([], ["-g"]))
        told = [graph_of(asked, made) for made in (plain, debugged)]
        asked.same("%s, no lines" % compiler.name, AT.search(told[0]), None, told[0])
        asked.same("%s, as without lines" % compiler.name, AT.sub("", told[1]), told[0])
        report = debugged.asked(["run", debugged.image, debugged.graph, "none", debugged.input_file(program.input), programs.STEPS])[1]
        trail = asked.told("report", *debugged.objects, debugged.graph, debugged.map, given=report)
        rows = re.findall(r"^    (?:from |to   )?([0-9a-f]{8})  .*?(?: at (\S+:\d+))?$", told[1] + trail, re.M)
        asked.same("%s, how many lines" % compiler.name, len(rows), 3 + 16, told[1] + trail)
        for address, line in rows:
            asked.same("%s, %s" % (compiler.name, address), line, line_of(debugged, address))


def line_of(made, address):
    """The file and the line of an address, by its place in the map and addr2line; nothing where there is none."""
    with open(made.map) as file:
        places = [line.split()[2:] for line in file if line.startswith("at ") and line.split()[1] <= address]
    if not places:
        return ""
    number, path = int(places[-1][0], 16), made.objects[0]
    for path in made.objects:
        if number < programs.sections(path):
            break
        number -= programs.sections(path)
    text = compilers.must([compilers.binutils("addr2line"), "-e", path, "-j", section_name(path, number), places[-1][1]]).decode().split()[0]
    line = os.path.basename(text)
    return "" if line.endswith(("?", ":0")) else line


def section_name(path, number):
    lines = compilers.must([compilers.binutils("readelf"), "-SW", path]).decode()
    return re.search(r"^ +\[ *%d\] (\S+)" % number, lines, re.M).group(1)


def linked(asked, compiler, program, more, policy="none", level="-O2"):
    """A program whose files are compiled with more options, hardened."""
    folder = asked.bench.new("_of")
    os.mkdir(folder)
    own = compiler._replace(options=compiler.options + more, command=compiler.command + [each for each in more if each == "-g"])
    objects = programs.objects_of(own, level, program, folder)
    return Linked(asked.tool, objects, os.path.join(folder, program.name), policy=policy)


def graph_of(asked, made):
    return asked.told("graph", *made.objects, made.graph, made.map)


def of_sites(asked):
    """The computed calls of a function that a wrong line names, where objdump has them."""
    path = asked.bench.case("chances.c", ["-fno-inline"])
    text = compilers.must([compilers.binutils("objdump"), "-d", path]).decode()
    for name, site in (("by_wide", "by_wide+0"), ("by_narrow", "by_narrow"), ("main", "main+0")):
        part = next(part for part in text.split("\n\n") if "<%s>:" % name in part)
        start = int(part.strip().split()[0], 16)
        called = [int(line.split(":")[0], 16) - start for line in part.splitlines() if re.search(r"\tjalr\t[as]\d", line)]
        policy = asked.bench.asked.file("sites.policy", ("rvcfi-policy 1\nsite %s add+0\nend\n" % site).encode())
        asked.refusal(path, "Computed jumps and calls of %s: %d\n" % (name, len(called)), *("    %s+%x " % (name, each) for each in called),
                      policy=policy)


def of_labels(asked, made):
    """Labels of the compiler's are told by functions and offsets: at branches those that the image's branches go to."""
    files = made.objects if isinstance(made, Linked) else [made.object]
    listing = asked.told("image", *files, made.image, made.graph, made.map)
    asked.same("no labels of the compiler", re.findall(r"\.L\w+", listing), [], listing)
    rows = re.findall(r"^.{8}  (?:near )?branch .*\[BRANCH (\S+)\] +to .{8} (\S+)$", listing, re.M)
    asked.same("branches", [row for row in rows if row[0] != row[1] and row[0] != row[1] + "+0"], [], listing)
    asked.same("some branches", len(rows) > 9, True, listing)


def of_numbers(asked):
    """The number that a list refused: a constant that a function is given, and one from memory, which profile.py tells."""
    policy = programs.policy_file((93,), asked.bench.new(".policy"))
    for number, value in (("221", 221), ("70000", 70000), ("kept", 1200)):
        path = asked.bench.case("numbers.c", ["-DNUMBER=" + number])
        files = [path + end for end in (".img", ".graph", ".map")]
        asked.bench.asked.answer("rewrite", path, "main", policy, *files)
        report = compilers.run([asked.tool, "run", files[0], files[1], "none", "none", programs.STEPS]).stdout
        text = asked.told("report", path, *files[1:], given=report)
        told = "Which number was refused is not told here: `tools/profile.py`" if number == "kept" else "refused is %d." % value
        asked.has("the number %s" % number, text, "the number of its system call is not in the list", told)
        asked.has("the number %s, by a run" % number, asked.made(PROFILE, files[0], files[2], path),
                  "stop handler __cfi_bad_target\na7 %d, the number of the system call that its list refused\n" % value)


def of_symbols(asked, made):
    """Functions at their gates, as the map has them, with the code of each."""
    out = made.image + ".elf"
    told = asked.made(SYMBOLS, made.image, made.map, *made.objects, out)
    table = symbols_of(out)
    names = [name for path in made.objects for name, row in symbols_of(path).items() if row[1] in "tT"]
    asked.same("functions", [name for name in names if table.get(name, ("", ""))[0] != "%016x" % made.gate(name)], [], str(table))
    asked.same("handlers", [table["__cfi_" + name][0][-8:] for name in ("bad_target", "bad_return", "deep", "opening", "closing")],
               ["40000000", "40000004", "40000008", "4000000c", "40000038"])
    text = compilers.must([compilers.binutils("objdump"), "-d", out]).decode()
    first = re.search(r"<take_message>:\n +%s:\t\S+ +\tadd[i]?\tsp,sp,-\d+" % table["take_message"][0][-8:], text)
    asked.same("what objdump has", bool(first), True, text[:3000])
    asked.has("symbols", told, "%s: " % out)
    wrong = asked.ended(SYMBOLS, made.image, made.map, *made.objects[::-1], out + "2")
    asked.same("symbols of other objects", wrong, 1)


def symbols_of(path):
    """What nm has: by the name of each symbol its address and its kind."""
    rows = (line.split() for line in compilers.must([compilers.binutils("nm"), path]).decode().splitlines())
    return {row[2]: (row[0], row[1]) for row in rows if len(row) == 3 and not row[2].startswith((".L", "$"))}


def of_variables(asked):
    """Variables where a run of the image itself has them; and a script that changes one where the script says."""
    compiler = asked.compiler
    for more in (["-fcommon"], ["-fpic"], ["-O0", "-fdata-sections"]):
        own = compiler._replace(options=[each for each in compiler.options if each != "-fno-pic"] + more)
        folder = asked.bench.new("_of")
        os.mkdir(folder)
        objects = [programs.compiled(own, "-O1", name, folder) for name in ("start.s", "memory.c", "text.c")]
        for defined in ([], ["-DOTHER"]):
            objects.append(os.path.join(folder, "variables%d.o" % len(defined)))
            options = own.options + ["-O1", *more, *defined]
            compilers.must(own.command + options + ["-c", programs.source("cases/variables.c"), "-o", objects[-1]])
        made = Linked(asked.tool, objects, os.path.join(folder, "variables"))
        printed = made.run(b"")[1].decode().split()
        out = made.image + ".elf"
        asked.made(SYMBOLS, made.image, made.map, *objects, out)
        table = symbols_of(out)
        asked.same("variables, %s" % more, [table.get(name, ("",))[0][-8:] for name in VARIABLES], printed)
        address = asked.made(SYMBOLS, made.image, made.map, *objects, out, "--address", "byte").split()
        asked.same("an address", address[:4], [printed[0], "byte", "1", "bytes"])
        script = asked.bench.asked.file("byte.script", b"rvcfi-script 1\nat 0 %s 2a\nend\n" % address[0].encode())
        asked.same("a script", (made.run(b"")[2]["stop"], made.run(b"", script)[2]["stop"]), (["exit", "7"], ["exit", "42"]))
    asked.same("no variable", asked.ended(SYMBOLS, made.image, made.map, *objects, out, "--address", "nothing"), 1)


def of_profile(asked, program, made):
    """Steps by function and by what they are for: as many as the report has, and as qemu's trace and nm come to."""
    report = made.run(program.input)[2]
    text = asked.made(PROFILE, made.image, made.map, *made.objects, "--input", made.input_file(program.input))
    rows = {line.split()[0]: list(map(int, line.split()[-10:])) for line in text.splitlines()[1:] if re.search(r"( +\d+){10}$", line)}
    columns = text.split("\n")[0].split()[1:]
    asked.same(program.name + ", all steps", rows["all"][0], int(report["steps"][0]), text)
    asked.same(program.name + ", sums", [name for name, row in rows.items() if sum(row[1:]) != row[0]], [], text)
    asked.has(program.name + ", its end", text, "stop %s\n" % " ".join(report["stop"]))
    try:
        compilers.tool("qemu-riscv64", "qemu-riscv64-static")
    except Missing as what:
        print("not run, since there is no %s: the profile of %s beside qemu's trace" % (what, program.name))
        return
    addresses = programs.addresses_run(programs.for_qemu(made.image), program.input)
    asked.same(program.name + ", by functions", {name: row[0] for name, row in rows.items() if row[0] and name not in ("all", "the")},
               counted(asked, made, addresses), text)
    words = words_of(made.image)
    for column, (word, each) in WORDS.items():
        count = sum(words[address] == word for address in addresses if address >= 0x40000040)
        asked.same("%s, %s" % (program.name, column), rows["all"][columns.index(column)], each * count, text)
    gates = sum(is_lead(words, address) for address in addresses)
    asked.same(program.name + ", gates", rows["all"][columns.index("gates")], gates, text)
    record = asked.bench.asked.file("record", "".join("%08x\n" % address for address in addresses).encode())
    asked.same(program.name + ", a record", asked.made(PROFILE, made.image, made.map, *made.objects, "--record", record).splitlines(),
               [line for line in text.splitlines() if not line.startswith("stop")])


def is_lead(words, address):
    """Whether a word is a gate, or the word beside one for the sort of class that a target is in none of."""
    is_gate = lambda at: words.get(at, 0) & 0xFFF == 0x37
    return is_gate(address) or words[address] == 0x13 and (is_gate(address - 4) or is_gate(address + 4))


def of_refused(asked, made, attack, address):
    """Where an exploit would have gone, which the run of profile.py tells."""
    text = asked.made(PROFILE, made.image, made.map, *made.objects, "--input", made.input_file(attack))
    asked.has("where it would have gone", text, " %x open_door+0, where it would have " % address)


def words_of(image):
    """The words of an image's code by their addresses."""
    code = dict(programs.segments(image))[0x40000000]
    return {0x40000000 + at: int.from_bytes(code[at:at + 4], "little") for at in range(0, len(code), 4)}


def counted(asked, made, addresses):
    """How many of the addresses lie in each function, by nm's addresses of the image's symbols."""
    out = made.image + ".elf"
    asked.made(SYMBOLS, made.image, made.map, *made.objects, out)
    starts = sorted((int(at, 16), name) for name, (at, kind) in symbols_of(out).items() if kind in "tT" and int(at, 16) >= 0x40000040)
    found = {}
    for address in addresses:
        before = [name for start, name in starts if start <= address]
        if before:
            found[before[-1]] = found.get(before[-1], 0) + 1
    return found


def of_typed(asked):
    """A policy by types: each site reaches what its type or its table has, at each level."""
    for compiler in programs.compilers_here(ABSENT):
        for level in ("-O0", "-O2", "-Os"):
            typed(asked, compiler, level, "typed.c", REACHED)
            typed(asked, compiler, level, "typed.c", REACHED, UNTOLD, ["-DUNTOLD"])
            typed(asked, compiler, level, "embedded.c", EMBEDDED, LOST if compiler.name == "clang" and level != "-O0" else ())
    asked.same("no types", asked.ended(POLICY, asked.bench.case("chances.c"), asked.bench.new(".policy")), 1)


def typed(asked, compiler, level, case, reached, untold=(), more=()):
    """Asks for the policy of a case: what its sites reach, for which there is no line, and how the program ends under it."""
    name = " ".join([compiler.name, level, case, *more])
    path, told, sites = policy_by_types(asked, compiler, level, case, list(more))
    owners = {owner for owner, _ in sites}
    asked.same(name + ", functions", owners, set(reached) - set(untold), told)
    wide = {owner: set().union(*(targets for of, targets in sites if of == owner)) for owner in owners}
    asked.same(name + ", targets", wide, {owner: reached[owner] for owner in owners}, told)
    asked.same(name + ", no line", set(re.findall(r"^no line for (\w+)\+", told, re.M)), set(untold), told)
    asked.same(name + ", run", asked.bench.ends(path, "main", path + ".policy"), asked.bench.host(case))
    if not untold:
        asked.same(name + ", classes", class_sizes(path + ".graph"), [2, 2, 2, 3] if case == "typed.c" else [2, 2, 2])


def policy_by_types(asked, compiler, level, case, more):
    """The object of a case with functions that compilers call, what is told of its policy, and the sites with what they reach."""
    own = [each for each in compiler.options if each not in programs.LEVELS] + ["-g", level, "-w", *more]
    own += TYPED if compiler.name == "gcc" else []
    path, memory, joined = asked.bench.new(".o"), asked.bench.new("_memory.o"), asked.bench.new("_joined.o")
    for source, made in ((os.path.join("cases", case), path), ("memory.c", memory)):
        compilers.must(compiler.command + own + ["-c", programs.source(source), "-o", made])
    compilers.must(compiler.join + ["-o", joined, path, memory])
    told = asked.made(POLICY, joined, joined + ".policy", "--calls", "93")
    with open(joined + ".policy") as file:
        lines = [line.split()[1:] for line in file if line.startswith("site ")]
    return joined, told, [(line[0].split("+")[0].split(".")[0], {each[:-2] for each in line[1:]}) for line in lines]


def class_sizes(graph):
    with open(graph) as file:
        return sorted(len(line.split()) - 2 for line in file if line.startswith("class"))


def of_narrowed(asked):
    """The programs of this folder under policies by types: the same outputs, no larger classes, and smaller ones in the one that has
    functions in a table and labels of a `switch`."""
    for compiler in programs.compilers_here(ABSENT):
        for program in programs.PROGRAMS:
            plain = linked(asked, compiler, program, ["-g"] + (TYPED if compiler.name == "gcc" else []))
            policy = plain.image + ".policy"
            asked.made(POLICY, *plain.objects, policy)
            narrowed = Linked(asked.tool, plain.objects, plain.image, policy=policy)
            name = "%s, %s" % (compiler.name, program.name)
            asked.same(name + ", verify", narrowed.verified(), (0, b"accepted\n"))
            runs = [made.run(program.input)[:2] + (made.run(program.input)[2]["stop"],) for made in (plain, narrowed)]
            asked.same(name + ", run", runs[1], runs[0])
            asked.same(name + ", compare", narrowed.compared(program.input)[1][:5], b"same ")
            pairs = list(zip(plain.classes()[1], narrowed.classes()[1]))
            asked.same(name + ", wider", [one for one, other in pairs if not one[1] >= other[1]], [])
            asked.same(name + ", narrower", any(one[1] > other[1] for one, other in pairs), program.name == "sorter")
