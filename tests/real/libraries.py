#!/usr/bin/env python3
"""Hardens programs that need a C library: one of this folder, and some of Debian's packages, no line of them changed.

    python3 tests/real/libraries.py [--program PATH] [--sysroot FOLDER] [--sources FOLDER] [--compiler gcc|clang] [NAME ..]

The library is built by tools/sysroot.py, once in FOLDER where one is named. Each program is joined with it to one object, which in
each form must be hardened and accepted; its output and status in the machine, with those of the plain program under qemu-riscv64,
must be those of the same files built for the host. Without names it is `sums` (of this folder) and `cmark`. Each member of the
library by itself must be refused for nothing but names that it does not define. What is missing, as a network, is told as not run. The last line counts what was asked, and the status is 1 where one failed.
"""

import glob
import os
import sys
import tempfile
from pathlib import Path
from typing import NamedTuple

sys.dont_write_bytecode = True
sys.path.insert(0, str(Path(__file__).resolve().parents[2]))

from tests.shared import programs
from tests.shared.command import Words
from tests.shared.forms import FORMS
from tests.shared.programs import Hardened
from tools.sysroot import compilers
from tools.sysroot.build import built
from tools.sysroot.compilers import Missing
from tools.sysroot.debian import Absent, archive, unpacked

SMALL = ["sums", "cmark"]
REFUSED = ["libc_ssp_stack_protector.c.o"]  # runs before `main`; nothing names it without -fstack-protector


class Package(NamedTuple):
    """A program: its package, files (those that begin with ./ are of this folder), what its own build would write, options, its input."""
    name: str
    package: str
    files: list
    include: list
    headers: dict
    options: list
    input: object


NUMBERS = b"3.5\n-1e300\nnone\n2.25\n1e300\n7\n0.1\n1e-310\n144\n-0.0\n"
CMARK = {
    "cmark_export.h": "#define CMARK_EXPORT\n#define CMARK_NO_EXPORT\n#define CMARK_DEPRECATED\n",
    "config.h": "#include <stdbool.h>\n#define CMARK_ATTRIBUTE(list) __attribute__ (list)\n#define CMARK_INLINE inline\n",
    "cmark_version.h": '#define CMARK_VERSION 7682\n#define CMARK_VERSION_STRING "0.30.2"\n'}
LUA = b"""local words = {}
for word in ("a hardened program, with a hardened library"):gmatch("%a+") do words[#words + 1] = word end
table.sort(words, function(a, b) return a < b end)
print(table.concat(words, " "), 7 // 2, 10 / 4, 2 ^ 0.5, #words, string.format("%5.2f|%x", 3.14159, 255))
"""
EXPAT = {"expat_config.h": "".join("#define %s\n" % each for each in (
    "BYTEORDER 1234", "XML_CONTEXT_BYTES 1024", "XML_DTD 1", "XML_NS 1", "XML_POOR_ENTROPY 1"))}
BZIP2 = "bzip2.c bzlib.c blocksort.c huffman.c crctable.c randtable.c compress.c decompress.c"
PACKAGES = [
    Package("sums", "", ["./sums.c"], [], {}, [], NUMBERS),
    Package("cmark", "cmark", ["src/*.c"], ["src"], CMARK, [], "README.md"),
    Package("expat", "expat", ["expat/lib/xml*.c", "expat/examples/outline.c"], ["expat/lib"], EXPAT, [], "expat/doc/xmlwf.xml"),
    Package("libtommath", "libtommath", ["*.c", "./bignum.c"], ["."], {}, [], b""),
    Package("jsmn", "jsmn", ["example/jsondump.c"], [], {}, [], "library.json"),
    Package("lz4", "lz4", ["lib/lz4.c", "examples/simple_buffer.c"], ["lib"], {}, [], b""),
    Package("xxhash", "xxhash", ["xxhash.c", "cli/*.c"], ["."], {}, [], "README.md"),
    Package("bzip2", "bzip2", BZIP2.split(), [], {}, ["-Wno-implicit-function-declaration"], "README.XML.STUFF"),
    Package("lua", "lua5.4", ["src/l[!u]*.c", "src/lu[!a]*.c", "src/lua.c"], ["src"], {}, ["-Dlua_stdin_is_tty()=0"], LUA),
]


class Built:
    """A package's files, and what their build for the host puts."""

    def __init__(self, package, sources, folder):
        self.package, self.folder = package, folder
        self.place = os.path.join(sources, package.name)
        if package.package and not os.path.exists(self.place):
            unpacked(archive(package.package, sources), self.place)
        self.written = os.path.join(folder, package.name + "_headers")
        os.makedirs(self.written, exist_ok=True)
        for name, text in package.headers.items():
            with open(os.path.join(self.written, name), "w") as file:
                file.write(text)
        self.input = package.input if isinstance(package.input, bytes) else self.read(package.input)

    def read(self, name):
        with open(os.path.join(self.place, name), "rb") as file:
            return file.read()

    def words(self):
        """What a compiler is given: options, and files by name."""
        own = [programs.source(each[2:]) for each in self.package.files if each.startswith("./")]
        patterns = [os.path.join(self.place, each) for each in self.package.files if not each.startswith("./")]
        found = [path for pattern in patterns for path in sorted(glob.glob(pattern))]
        include = [self.written] + [os.path.join(self.place, each) for each in self.package.include]
        return ["-w", *self.package.options, *("-I" + each for each in include), *found, *own]

    def on_host(self):
        path = os.path.join(self.folder, self.package.name + "_host")
        compilers.must([compilers.tool("gcc", "cc", "clang"), "-O1", "-o", path] + self.words() + ["-lm"])
        done = compilers.run([path], self.input)
        return done.stdout, done.returncode

    def joined(self, compiler, name="", *options):
        """One object of the program and what it needs of the library."""
        path = os.path.join(self.folder, self.package.name + name + "_joined.o")
        compilers.must([compiler, "-O2", *options, "-o", path] + self.words())
        return path


def tried(tool, made, compiler):
    """What failed of a program, and how much was asked."""
    wanted, path, failed, asked = made.on_host(), made.joined(compiler), [], 0
    rows = [("plain under qemu", programs.under_qemu(programs.linked(path), made.input), wanted)]
    for form in FORMS:
        hardened = Hardened(tool, path, form)
        rows.append((form, hardened.told[0], 0))
        if hardened.told[0]:
            failed.append(hardened.told[1].decode())
            continue
        _, output, report = hardened.run(made.input)
        rows.append((form + ", verify", hardened.verified(), (0, b"accepted\n")))
        rows.append((form + ", run", (output, report["stop"][-2:]), (wanted[0], ["exit", str(wanted[1])])))
    for what, got, want in rows:
        asked += 1
        if got != want:
            failed.append("FAILED %s, %s: %.200r, not %.200r" % (made.package.name, what, got, want))
    return failed, asked


def members(tool, compiler, folder):
    """The members of the library that are refused for more than what they name and do not have, and how many it has."""
    place = os.path.join(folder, "members")
    os.makedirs(place)
    compilers.must([compilers.binutils("ar"), "x", os.path.join(os.path.dirname(compiler), "lib", "libc.a"), "--output", place])
    names, wrong = sorted(os.listdir(place)), []
    for name in names:
        path = os.path.join(place, name)
        told = Hardened(tool, path).told[1].decode()
        if told.split()[:2] not in (["refused", "15"], ["refused", "17"]) and name not in REFUSED:
            wrong.append("FAILED the library's %s: %s" % (name, told.strip()))
    return wrong, len(names)


def compiler_of(options, folder):
    """The compiler of a library that is there, or is built now."""
    path = os.path.join(options.sysroot or os.path.join(folder, "sysroot"), "cc")
    if not os.path.exists(path):
        built(os.path.dirname(path), options.compiler, 64, options.sources)
    return path


def try_all(options, folder):
    """The lines to print, and how much was asked."""
    options.sources = options.sources or os.path.join(folder, "sources")
    compiler = compiler_of(options, folder)
    lines, asked = members(options.program, compiler, folder)
    for package in PACKAGES:
        if package.name in (options.names or SMALL):
            failed, count = tried(options.program, Built(package, options.sources, folder), compiler)
            lines, asked = lines + failed, asked + count
    return lines, asked


def main():
    words = Words(__doc__)
    words.add_argument("names", metavar="NAME", nargs="*", help="of " + " ".join(package.name for package in PACKAGES))
    words.add_argument("--sysroot", metavar="FOLDER", help="the library's folder, where it is built if it is not there")
    words.add_argument("--sources", metavar="FOLDER", help="where the packages are, or go to")
    words.add_argument("--compiler", choices=["gcc", "clang"], default="gcc")
    options = words.parse_args()
    with tempfile.TemporaryDirectory() as folder:
        try:
            compilers.tool("qemu-riscv64", "qemu-riscv64-static")
            compilers.binutils("ld")
            lines, asked = try_all(options, folder)
        except (Missing, Absent) as what:
            print("not run: tests/real/libraries.py: %s" % str(what).replace("\n", " ")[:300])
            return 0
    failed = sum(line.startswith("FAILED") for line in lines)
    print("\n".join(lines + ["%d passed, %d failed" % (asked - failed, failed)]))
    return 1 if failed else 0


if __name__ == "__main__":
    sys.exit(main())
