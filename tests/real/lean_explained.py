"""What tools/explain.py and profile.py tell of lean images: units, columns, which entries save the site of their call and which are leaves.

For tests/real/explained.py. The images are those of the model (tests/model), which hardens in lean forms whether the program does or not;
the program verifies and runs them. Why each entry of cases/leaves.s is no leaf is known from that source.
"""

import re

from tests.model.hardener import Source
from tests.model.hardening import hardened_in
from tests.real import told
from tests.shared import programs
from tests.shared.forms import LEAN
from tests.shared.programs import Hardened
from tools.sysroot import compilers


WHY = {  # of cases/leaves.s: by each entry that is no leaf what is told of it
    "main": ["it calls: main+8: ", "it makes a computed call: main+68: jalr t0", "it writes x1: main+6c: ld ra,8(sp)"],
    "leaf": ["it is gone to from elsewhere: tails+4: j "],
    "tails": ["it goes elsewhere: tails+4: j "],
    "writes": ["it writes x1: writes+0: mv ra,ra"],
    "labels": ["it has a word as labels have: labels+0: lui zero,0x5"],
    "falls": ["its last instruction is no jump and no return: falls+0: "],
    "fallen": ["what stands before it goes on into it: falls+0: "],
    "leaves": ["it goes elsewhere: leaves+0: bnez a0,"],
    "entered": ["it is gone to from elsewhere: leaves+0: bnez a0,"],
    "ends": ["its last instruction is no jump and no return: ends+8: ebreak"],
    "breaks": ["what stands before it goes on into it: ends+8: ebreak", "it makes a computed jump: breaks+0: jr t1",
               "its last instruction is no jump and no return: breaks+0: jr t1"],
    "pointed": ["it is a target of class 00001 of calls", "it is a target of class 00002 of jumps"],
}
LEAF = ["loops"]
OVER_A_GATE = 28  # bytes from the jump over an enter with a gate to what is behind it
SHORT, LONG, CHECK = 0x00407FB3, 0x004FFFB3, 0xFFCFFF93  # the mask off x0, the end of a long one, and the word that tells checks
BASE = 0x000F8000
RUN = {"calls": (0x03019F13, 4), "returns": (0xFF81BF83, 3), "checks": (CHECK, 10)}  # what begins a unit, and how many words of it are run


class Modelled(Hardened):
    """An object that the model hardens; the program is asked of its files."""

    def __init__(self, tool, path, form, entry=programs.ENTRY):
        self.tool, self.object, self.objects, self.form, self.policy, self.entry = tool, path, [path], form, "none", entry
        self.image, self.graph, self.map = ("%s_%s%s" % (path, form, end) for end in (".img", ".graph", ".map"))
        with open(path, "rb") as file:
            self.made = hardened_in(form, Source(file.read()), entry)
        for name in ("image", "graph", "map"):
            with open(getattr(self, name), "wb") as file:
                file.write(getattr(self.made, name))

    def files(self):
        return [self.object, self.image, self.graph, self.map]


def of_entries(asked):
    """Which entries are leaves and which save the site of their call, and why."""
    path = asked.bench.case("leaves.s")
    for form in LEAN:
        made = Modelled(asked.tool, path, form, "main")
        text = asked.told("entries", *made.files())
        rows = re.findall(r"^([0-9a-f]{8})  (leaf |saves)  (\w+)\n((?:    .*\n)*)", text, re.M)
        found = {name: [line[4:] for line in reasons.splitlines()] for _, _, name, reasons in rows}
        asked.same(form + ", leaves", [name for _, kind, name, _ in rows if kind == "leaf "], LEAF, text)
        asked.same(form + ", entries", sorted(found), sorted([*WHY, *LEAF]), text)
        asked.same(form + ", in all", text.split("\n")[0], "13 entries: 1 leaves, 12 that save the site of their call")
        for name, wanted in WHY.items():
            told_of = found.get(name, [])
            matching = [line for line, start in zip(told_of, wanted) if line.startswith(start)]
            asked.same("%s, why %s is no leaf" % (form, name), (len(told_of), matching), (len(wanted), told_of), text)
        asked.same(form + ", where calls go", {at for at, _, _, _ in rows}, called(made), text)
    older = Modelled(asked.tool, path, "split", "main")
    asked.has("entries of another form", asked.told("entries", *older.files()), "each call of this image saves its own site")


def called(made):
    """Where direct calls and the calls of classes go, by a graph: an enter, or a leaf's first word."""
    with open(made.graph) as file:
        lines = [line.split() for line in file]
    direct = {line[2] for line in lines if line[0] == "call"}
    return direct | {"%08x" % (int(at, 16) + 12) for line in lines if line[0] == "callclass" for at in line[2:]}


def of_programs(asked, program, path, of_image):
    """The units of an image of each lean form, where the steps of its run go, and that each entry that is no leaf has a reason."""
    for form in LEAN:
        made, name = Modelled(asked.tool, path, form), "%s in form %s" % (program.name, form)
        asked.same(name, made.verified(), (0, b"accepted\n"))
        of_image(asked, program, made)
        of_profile(asked, program, made)
        text = asked.told("entries", *made.files())
        rows = re.findall(r"^([0-9a-f]{8})  (leaf |saves)  ", text, re.M)
        asked.same(name + ", entries", {at for at, _ in rows}, called(made), text)
        asked.same(name + ", leaves", sum(kind == "leaf " for _, kind in rows), len(made.made.layout.leaves.first), text)
        asked.same(name + ", what is strange", "strange" in text, False, text)


def of_profile(asked, program, made):
    """Steps by what they are for, as qemu's trace and the words of the image have them."""
    text = asked.made(told.PROFILE, made.image, made.map, made.object, "--input", made.input_file(program.input))
    columns, name = text.split("\n")[0].split()[1:], "%s in form %s" % (program.name, made.form)
    row = next((list(map(int, line.split()[1:])) for line in text.splitlines() if line.startswith("all ")), [])
    if not row:
        return asked.same(name + ", a profile", text[:100], "function")
    asked.same(name + ", all steps", (row[0], sum(row[1:])), (int(made.run(program.input)[2]["steps"][0]),) * 2, text)
    try:
        compilers.tool("qemu-riscv64", "qemu-riscv64-static")
    except compilers.Missing as what:
        return print("not run, since there is no %s: the profile of %s beside qemu's trace" % (what, name))
    words, leads = told.words_of(made.image), leads_of(made)
    first = made.made.layout.first
    addresses = [at for at in programs.addresses_run(programs.for_qemu(made.image), program.input) if at >= first]
    run = [words[at] for at in addresses]
    wanted = {column: each * run.count(word) for column, (word, each) in RUN.items()}
    short = sum(word & ~BASE == SHORT and word != LONG for word in run)
    wanted["masks"] = short + 2 * run.count(LONG) + 2 * run.count(CHECK)
    wanted["gates"] = sum(at in leads for at in addresses)
    return asked.same(name + ", columns", {column: row[columns.index(column)] for column in wanted}, wanted, text)


def leads_of(made):
    """The addresses of what stands before places' units, but for enters."""
    with open(made.graph) as file:
        lines = [line.split() for line in file]
    with open(made.map) as file:
        gates = [int(line.split()[1], 16) for line in file if line.startswith("at ")]
    found = {int(at, 16) for line in lines if line[0].endswith("class") for at in line[2:]}
    for source, target in ((int(line[1], 16), int(line[2], 16)) for line in lines if line[0] == "edge"):
        if target not in gates:
            found |= {source, source + 4} if target - source == OVER_A_GATE else {source}
    return found
