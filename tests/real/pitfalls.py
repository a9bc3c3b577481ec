"""What goes wrong on the way from C to a hardened program, and what mends it, as docs/COMPILING.md says.

The programs are in `cases`. Each row is what was tried, how it ended and how it should end: a refusal, or the end of the run
of the hardened program, whose status is that of the host's build.
"""

import os
import shutil

from tests.real.refusals import Asked
from tests.shared import programs
from tests.shared.programs import STEPS
from tools.sysroot import compilers

MACHINE = ["-march=rv64i", "-mabi=lp64"]
BAD_RETURN, BAD_TARGET = "stop handler __cfi_bad_return", "stop handler __cfi_bad_target"
NO_ZEROS = ["-Wa,-mno-relax"]  # the assembler fills what it aligns with no-operations
LABELS = [("untyped.s", ["-Wa,--defsym,TYPED=1"]), ("unsized.s", ["-Wa,--defsym,SIZED=1"])]
CHANCES = ("site by_wide+%(wide)x add+0 take+0 keep+0\n", "site by_narrow+%(narrow)x add+0 take+0\n")


class Bench:
    """Compiles, joins and hardens the programs of `cases` by one compiler, for a processor without products."""

    def __init__(self, tool, folder, compiler):
        command = [word for word in compiler.command if not word.startswith("-march=")]
        self.compiler = compiler._replace(command=command + MACHINE[:1])
        self.asked, self.count = Asked(tool, folder), 0

    def new(self, end):
        self.count += 1
        return self.asked.path("case_%s_%d%s" % (self.compiler.name, self.count, end))

    def compiled(self, name, more=(), without=(), command=None):
        path = self.new(".o")
        words = (command or self.compiler.command) + ([] if name.endswith(".s") else self.compiler.options + ["-O2"])
        words = [word for word in words if word not in without] + list(more)
        compilers.must(words + ["-c", programs.source(name), "-o", path])
        return path

    def case(self, name, more=(), **rest):
        return self.compiled(os.path.join("cases", name), more, **rest)

    def joined(self, *objects, more=()):
        path = self.new("_joined.o")
        compilers.must(self.compiler.join + list(more) + ["-o", path] + list(objects))
        return path

    def ends(self, path, entry="main", policy="none"):
        """The refusal's number and name, or how the run of the hardened object ends."""
        image, graph, map_file = (path + end for end in (".img", ".graph", ".map"))
        told = self.asked.answer("rewrite", path, entry, policy, image, graph, map_file)
        if not told.startswith("rewritten"):
            return " ".join(told.split()[:3])
        verified = self.asked.answer("verify", image, graph)
        if verified != "accepted\n":
            return verified
        report = self.asked.answer("run", image, graph, "none", "none", STEPS)
        return next(line for line in report.splitlines() if line.startswith("stop"))

    def host(self, name):
        """How the host's build of a case ends."""
        path = self.new(".host")
        compiler = compilers.tool(*(["g++", "clang++"] if name.endswith(".cpp") else ["gcc", "cc", "clang"]))
        compilers.must([compiler, "-O1", "-o", path, programs.source(os.path.join("cases", name))])
        return "stop exit %d" % compilers.run([path]).returncode


def of_alignment(bench):
    """The assembler fills the end of a section whose functions are aligned with zero words."""
    host = bench.host("aligned.c")
    aligned = ["-falign-functions=16"]
    yield "aligned functions", bench.ends(bench.joined(bench.case("aligned.c", aligned))), "refused 9 Undecodable"
    mended = bench.joined(bench.case("aligned.c", aligned + ["-Wa,-mno-relax"]))
    yield "aligned functions without relaxation", bench.ends(mended), host


def of_aligned_assembly(bench):
    for more, wanted in ("", "refused 9 Undecodable"), (".option norelax\n", "stop exit 0"):
        path = bench.asked.file("aligned%d.s" % len(more), (more + ".globl main\nmain: li a0, 0\nret\n.p2align 4\nnext: ret\n").encode())
        compilers.must(bench.compiler.command + ["-c", path, "-o", path + ".o"])
        yield "aligned assembly, " + more.strip(), bench.ends(path + ".o"), wanted


def of_joined_alignment(bench):
    """A linker fills what lies between two aligned sections, which functions in sections of their own leave out."""
    for more, wanted in ([], "refused 9 Undecodable"), (["-ffunction-sections"], bench.host("aligned.c")):
        words = ["-falign-functions=16"] + more
        one, other = bench.case("aligned.c", words), bench.case("aligned.c", words + ["-Dmain=other", "-Dtwice=thrice"])
        yield "joined aligned functions, " + "".join(more), bench.ends(bench.joined(one, other)), wanted


def of_anchors(bench):
    """A symbol of the compiler's that stands outside its section."""
    yield "anchors", bench.ends(bench.case("anchors.c")), "refused 8 BadSymbol"
    yield "no anchors", bench.ends(bench.case("anchors.c", ["-fno-section-anchors"])), bench.host("anchors.c")


def of_groups(bench):
    """Groups of sections: macros of -g3, and C++."""
    macros, host = bench.case("macros.c", ["-g3"]), bench.host("macros.c")
    yield "-g3", bench.ends(macros), "refused 7 SectionKind"
    yield "-g3, groups taken apart", bench.ends(bench.joined(macros, more=["--force-group-allocation"])), host
    compilers.must([compilers.binutils("strip"), "-g", macros])
    yield "-g3, stripped", bench.ends(macros), host
    if not shutil.which("riscv64-linux-gnu-g++") or not shutil.which("g++"):
        print("not run, since there is no riscv64-linux-gnu-g++ and g++: the program in C++")
        return
    command = ["riscv64-linux-gnu-g++"] + MACHINE + ["-fno-exceptions", "-fno-rtti"]
    shapes = bench.case("shapes.cpp", command=command)
    yield "C++", bench.ends(shapes), "refused 7 SectionKind"
    yield "C++, groups taken apart", bench.ends(bench.joined(shapes, more=["--force-group-allocation"])), bench.host("shapes.cpp")


def of_library(bench):
    """The compiler's library of floating-point numbers."""
    elf = "riscv64-unknown-elf-gcc"
    if not shutil.which(elf):
        print("not run, since there is no %s: the library of floating-point numbers" % elf)
        return
    library = compilers.must([elf] + MACHINE + ["-print-libgcc-file-name"]).decode().strip()
    joined = bench.joined(bench.case("soft.c"), library, more=["-e", "main"])
    yield "libgcc's floating-point numbers", bench.ends(joined), "refused 10 ReservedRegister"


def of_products(bench):
    """Inline assembly that counts on the registers of __muldi3."""
    wide, arithmetic = bench.case("wide.c"), bench.compiled("arithmetic.c")
    yield "product.s", bench.ends(bench.joined(wide, bench.compiled("product.s"), arithmetic)), bench.host("wide.c")
    wrong = bench.ends(bench.joined(wide, arithmetic))
    yield "a product in C gives another number", wrong.startswith("stop exit") and wrong != bench.host("wide.c"), True


def of_arguments(bench):
    """A function of twelve arguments."""
    try:
        bench.case("twelve.c")
        told = "compiled"
    except RuntimeError as failed:
        told = "has been reserved" if "has been reserved" in str(failed) else str(failed)
    yield "twelve arguments", told, "has been reserved"
    yield "twelve arguments, not static", bench.ends(bench.case("twelve.c", ["-DKIND="])), bench.host("twelve.c")


def of_size(bench):
    """Branches count as two words in refusal 19: 65,000 stores of four words and 2,000 branches of one would fit."""
    for branches, wanted in (2000, "refused 19 CodeTooLarge"), (1000, "stop exit 0"):
        text = ".globl main\nmain:\n.rept 65000\nsd zero, -8(sp)\n.endr\n.rept %d\nbeq zero, sp, .+8\n.endr\nli a0, 0\nret\n" % branches
        path = bench.asked.file("size%d.s" % branches, text.encode())
        compilers.must(bench.compiler.command + ["-c", path, "-o", path + ".o"])
        yield "65,000 stores and %d branches" % branches, bench.ends(path + ".o"), wanted


def policy_of(bench, path, lines):
    """A policy of some of the lines of CHANCES; each function has one computed call."""
    text = compilers.must([compilers.binutils("objdump"), "-d", path]).decode()
    places = {}
    for part in text.split("\n\n"):
        called = [line.split(":")[0] for line in part.splitlines() if "\tjalr\t" in line]
        for name in ("wide", "narrow"):
            if "<by_%s>:" % name in part:
                start = int(part.strip().split()[0], 16)
                places[name] = int(called[0], 16) - start
    return bench.asked.file("chances_%d.policy" % len(lines), ("rvcfi-policy 1\n" + "".join(lines) % places + "end\n").encode())


def of_policies(bench):
    """A line of a policy narrows nothing where a site that is not listed reaches the same targets."""
    path, host = bench.case("chances.c", ["-fno-inline"]), bench.host("chances.c")
    counts = []
    apart = CHANCES[0].replace("add+0 take+0 ", ""), CHANCES[1]
    for lines in ([], CHANCES[1:], CHANCES, apart):
        yield "a policy of %d lines" % len(lines), bench.ends(path, policy=policy_of(bench, path, lines)), host
        with open(path + ".graph") as file:
            counts.append([len(line.split()) - 2 for line in file if line.startswith("class")])
    yield "classes by policies", counts, [[3], [3], [3], [2, 1]]


def of_names(bench):
    """An entry is the first symbol of its name, and local ones come first."""
    joined = bench.joined(bench.case("second_name.c"), bench.case("first_name.c"))
    yield "two functions of a name", bench.ends(joined, "begin"), "stop exit 11"


def of_jumps(bench):
    """longjmp, a coroutine, an exception's end: the plain program goes on, the hardened one ends in a handler."""
    assembly, start = bench.case("jumps.s"), bench.compiled("start.s")
    for name in ("jumped", "switched", "thrown"):
        joined = bench.joined(start, assembly, bench.case("jumps.c", ["-D%s=main" % name]))
        plain = programs.under_qemu(programs.linked(joined), b"")
        yield name + ", plain", plain, (b"", 5)
        yield name, bench.ends(joined, "_start"), BAD_RETURN


def plain_end(bench, path):
    """How the program of an object ends that is not hardened."""
    return programs.under_qemu(programs.linked(bench.joined(bench.compiled("start.s"), path)), b"")


def of_labels(bench):
    """A function without a type and labels in a function without a size are no targets."""
    for name, mended in LABELS:
        path = bench.case(name)
        yield name + ", plain", plain_end(bench, path), (b"", 5)
        yield name, bench.ends(path), BAD_TARGET
        yield name + ", " + mended[0], bench.ends(bench.case(name, mended)), "stop exit 5"


def of_marks(bench):
    """Marks in the low bits of pointers to functions that are aligned."""
    yield "marked pointers, plain", bench.host("tagged.c"), "stop exit 5"
    yield "marked pointers", bench.ends(bench.case("tagged.c", NO_ZEROS)), BAD_TARGET


def of_distances(bench):
    """A distance between places of code in 8 bits, which wraps, and is compared with the same one in 32."""
    path = bench.case("distances.s")
    yield "a distance in 8 bits, plain", plain_end(bench, path), (b"", 0)
    yield "a distance in 8 bits", bench.ends(path), "stop exit 1"


OF_GCC = [of_alignment, of_aligned_assembly, of_anchors, of_groups, of_library, of_products, of_size, of_policies, of_names, of_jumps,
          of_labels, of_marks, of_distances]
OF_CLANG = [of_joined_alignment, of_arguments]


def tried(tool, folder, compilers):
    """The failures of all rows, and how many there are."""
    rows = []
    for name, compiler in {compiler.name: compiler for compiler in compilers}.items():
        bench = Bench(tool, folder, compiler)
        for part in OF_GCC if name == "gcc" else OF_CLANG:
            rows += part(bench)
    return ["FAILED on the way, %s: %.200r, not %.200r" % row for row in rows if row[1] != row[2]], len(rows)
