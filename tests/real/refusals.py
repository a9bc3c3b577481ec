"""What compilers and hands give that is refused: the table of docs/COMPILING.md.

Each row is a refusal, a source in C, the options of docs/COMPILING.md that are left out, and options that are added. Of two
objects that `link` joins a row is a refusal, options that are added, and both sources.
"""

import os
import re

from tests.shared import programs
from tools.sysroot import compilers
from tools.sysroot.compilers import machine

PLAIN = "int main(void) { return 0; }"
NAMES_Q = "extern int q; int main(void) { return q; }\n"
MACHINE, BASE = machine("rv64im"), machine("rv64i")
MANY = "long f(long *p) { long s = 0; for (int k = 0; k < 30; k++) p[k] += p[29 - k] ^ s, s += p[k] << k; return s; }\n"
PRODUCT = "int main(int n, char **words) { return n * **words; }"
ATOMIC = "int k; int main(void) { return __atomic_fetch_add(&k, 1, 5); }"

GCC_ROWS = [
    ("4 Flags", PLAIN, MACHINE, []),
    ("7 SectionKind", "static int k; __attribute__((constructor)) void f(void) { k = 1; } int main(void) { return k; }", [], []),
    ("7 SectionKind", "__thread int k = 3; int main(void) { return k; }", [], []),
    ("8 BadSymbol", PLAIN + " void f(void); void *p = f; __asm__(\".type f, %gnu_indirect_function\");", [], []),
    ("9 Undecodable", ATOMIC, MACHINE, ["-march=rv64ima", "-mabi=lp64"]),
    ("9 Undecodable", "int main(void) { long t; __asm__ volatile(\"rdcycle %0\" : \"=r\"(t)); return t; }", [], []),
    ("10 ReservedRegister", MANY + PLAIN, ["-ffixed-t5", "-ffixed-t6"], ["-funroll-all-loops"]),
    ("11 BadTransfer", "int g(int); int main(void) { return g(g(3)) + 1; }", [], ["-msave-restore"]),
    ("12 BadPair", "int main(void) { __asm__ volatile(\"auipc t0, 0\" : : : \"t0\"); return 0; }", [], []),
    ("13 RelocKind", "int main(void) { return 0; } __asm__(\".data\\n.reloc ., R_RISCV_32_PCREL, main\\n.word 0\");", [], []),
    ("14 RelocPlace", "int main(void) { return 0; } __asm__(\".bss\\n.reloc ., R_RISCV_64, main\\n.zero 8\");", [], []),
    ("15 Undefined", PRODUCT, MACHINE, BASE),
    ("15 Undefined", ATOMIC, [], []),
    ("15 Undefined", NAMES_Q, ["-fno-pic"], ["-fpic"]),
    ("15 Undefined", NAMES_Q.replace("q", "_end"), [], []),
    ("15 Undefined", "int f(char *); int main(void) { char a[9]; return f(a); } int f(char *a) { return *a; }", [],
     ["-fstack-protector-all"]),
    ("16 BadCodePointer", PLAIN + " char *p = (char *)main + 2;", [], []),
    ("17 NoEntry", "int start(void) { return 0; }", [], []),
    ("19 CodeTooLarge", PLAIN + " __asm__(\".text\\n.rept 262200\\nnop\\n.endr\");", [], []),
    ("20 DataTooLarge", "char a[268000000]; int main(void) { return a[5]; }", [], []),
]
LINK_ROWS = [
    ("15 Undefined in 2\n", [], PLAIN, NAMES_Q.replace("main", "f")),
    ("17 NoEntry\n", [], "int f(void) { return 0; }", "int g(void) { return 0; }"),
    ("27 Duplicate both\n", ["-fno-common"], PLAIN + " int both;", "int both;"),
    ("27 Duplicate main\n", [], PLAIN, PLAIN),
]
CLANG_ROWS = [
    ("1 NotElf", PLAIN, [], ["-flto"]),
    ("9 Undecodable", "int main(void) { __builtin_trap(); }", [], []),
    ("12 BadPair", "__attribute__((noinline)) static int f(int n) { return n + 1; } int main(void) { return f(f(2)); }", [],
     ["-mno-relax"]),
]


def compiled(compiler, text, without, more, path):
    """Compiles a text with so many options less and more, and answers the object's path."""
    options = [word for word in compiler.command + compiler.options if word not in without]
    with open(path + ".c", "w") as file:
        file.write(text + "\n")
    compilers.must(options + ["-O2"] + more + ["-c", path + ".c", "-o", path])
    return path


class Asked:
    """The tool's commands over files of a folder."""

    def __init__(self, tool, folder):
        self.tool, self.folder = tool, folder
        self.written = [self.path("plain" + end) for end in (".img", ".graph", ".map")]

    def path(self, name):
        return os.path.join(self.folder, name)

    def file(self, name, content):
        with open(self.path(name), "wb") as file:
            file.write(content)
        return self.path(name)

    def answer(self, *words):
        return compilers.run([self.tool] + list(words)).stdout.decode()

    def rewrite(self, path, policy="none", files=("other.img", "other.graph", "other.map")):
        return self.answer("rewrite", path, "main", policy, *(self.path(name) for name in files))

    def link(self, paths, files=("other.img", "other.graph", "other.map")):
        return self.answer("link", "plain", "main", "none", *(self.path(name) for name in files), *paths)


def of_compilers(asked, compilers):
    """Each row's refusal, and the answer to the row's object."""
    tables = {"gcc": GCC_ROWS, "clang": CLANG_ROWS}
    for compiler in compilers:
        for number, (refusal, *row) in enumerate(tables[compiler.name]):
            yield refusal, asked.rewrite(compiled(compiler, *row, asked.path("%s_row_%d.o" % (compiler.name, number))))


def of_links(asked, compiler):
    """The refusals of objects that are joined. Which symbol of an object is undefined is left out."""
    for number, (refusal, more, *sources) in enumerate(LINK_ROWS):
        paths = [compiled(compiler, text, [], more, asked.path("link_%d_%d.o" % (number, at))) for at, text in enumerate(sources)]
        yield refusal, re.sub("[0-9]+ in ", "in ", asked.link(paths))
    path, count = many_sections(asked, compiler)
    yield "28 TooManySections %d\n" % (3 * count), asked.link([path] * 3)
    yield "6 BadTable 0\n", asked.rewrite(many_sections(asked, compiler, 65300)[0])


def many_sections(asked, compiler, count=22000):
    """An object of so many sections of data, without the option more than a third of 65,536, and how many its header tells in all."""
    path = asked.path("many_%d.o" % count)
    asked.file("many.s", "".join(".section .data.n%d,\"aw\"\n" % number for number in range(count)).encode())
    compilers.must(compiler.command + ["-c", asked.path("many.s"), "-o", path])
    told = compilers.must([compilers.binutils("readelf"), "-hW", path]).decode()
    return path, int(re.search(r"Number of section headers: +(\d+)", told).group(1))


def of_files(asked, compiler):
    """The refusals of other files: programs, objects of the host, cut ones, and files in the place of others."""
    plain = compiled(compiler, PLAIN, [], [], asked.path("plain.o"))
    with open(plain, "rb") as file:
        content = file.read()
    image, graph, map_file = asked.written
    yield "1 NotElf", asked.rewrite(plain + ".c")
    compilers.must([compilers.binutils("ld"), "-e", "main", "-o", asked.path("linked"), plain])
    yield "2 NotRelocatable 2", asked.rewrite(asked.path("linked"))
    compilers.must([compilers.tool("gcc", "cc", "clang"), "-c", plain + ".c", "-o", asked.path("host.o")])
    yield "3 NotRiscv", asked.rewrite(asked.path("host.o"))
    yield "5 Truncated", asked.rewrite(asked.file("cut.o", content[:200]))
    yield "18 Policy 2", asked.rewrite(plain, asked.file("policy", b"rvcfi-policy 1\nsite main+0 main+0\nend\n"))
    yield "18 Policy 2", asked.rewrite(plain, asked.file("policy", b"rvcfi-policy 2\nend\n"))
    yield "18 Policy 2", asked.rewrite(plain, asked.file("policy", b"rvcfi-policy 2\ncalls 64 2048\nend\n"))
    yield "18 Policy 3", asked.rewrite(plain, asked.file("policy", b"rvcfi-policy 2\ncalls 64\ncalls 64\nend\n"))
    asked.rewrite(plain, files=("plain.img", "plain.graph", "plain.map"))
    far = compiled(compiler, NAMES_Q, [], [], asked.path("far.o"))
    compilers.must([compilers.binutils("ld"), "-r", "--defsym=q=0x123456789", "-o", asked.path("range.o"), far])
    yield "21 RelocRange", asked.rewrite(asked.path("range.o"))
    yield "22 Byte 16", asked.answer("verify", plain, graph)
    yield "22 Byte 160", asked.answer("verify", programs.for_qemu(image), graph)
    yield "23 Graph 1 Form", asked.answer("verify", image, map_file)
    yield "24 Map 1 Form", asked.answer("compare", plain, "main", "none", image, graph, "none", "9")
    yield "25 Script 1 Form", asked.answer("run", image, graph, map_file, "none", "9")


def tried(tool, folder, compilers):
    """The failures of all rows, and how many there are."""
    asked = Asked(tool, folder)
    rows = [*of_compilers(asked, compilers), *of_links(asked, compilers[0]), *of_files(asked, compilers[0])]
    failed = ["FAILED refusal %s: %.200r" % row for row in rows if not row[1].startswith("refused %s" % row[0])]
    return failed, len(rows)
