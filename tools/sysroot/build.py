"""Builds picolibc and LLVM's functions that compilers call, with the options of docs/COMPILING.md, and the compiler that joins them."""

import os
import re
import shlex
import shutil
from concurrent.futures import ThreadPoolExecutor
from dataclasses import dataclass

from . import compilers
from .debian import archive, asked, unpacked

HERE = os.path.dirname(os.path.abspath(__file__))

SUITES = {"picolibc": "trixie", "llvm-toolchain-16": "bookworm"}
BUILTINS = "compiler-rt/lib/builtins"
LISTS = "GENERIC_SOURCES", "GENERIC_TF_SOURCES"
FREESTANDING = {"-ffreestanding", "-Wall", "-Wextra"}  # what a program with a C library needs no more
NOT_BUILT = {"apple_versioning.c", "os_version_check.c", "trampoline_setup.c", "muldi3.c"}  # of other systems; an instruction
IN_C = "memset", "strcmp"
UNUSED = ["-Wno-unused-command-line-argument"]  # a linker where nothing is linked
SMALLER = ["-fno-jump-tables", "-ffunction-sections", "-fdata-sections"]
LINUX = ["-U" + name for name in ("__linux__", "__linux", "linux", "__gnu_linux__", "__unix__", "__unix", "unix")]
OPTIONS = {
    "multilib": "false", "picocrt": "false", "semihost": "false", "thread-local-storage": "false", "newlib-global-errno": "true",
    "single-thread": "true", "atomic-ungetc": "false", "initfini-array": "false", "io-long-long": "true", "io-long-double": "true",
    "specsdir": "none", "includedir": "include", "libdir": "lib", "buildtype": "plain", "optimization": "2", "debug": "false"}
CROSS = """[binaries]
c = {command}
ar = '{ar}'
nm = '{nm}'
strip = 'true'
[host_machine]
system = 'none'
cpu_family = 'riscv64'
cpu = 'riscv'
endian = 'little'
[properties]
c_args = {options}
skip_sanity_check = true
"""


@dataclass
class Compiler:
    """The command that compiles for the machine, the options of each file, those of joining, and the tools beside it."""
    command: list
    options: list
    join: list
    headers: list
    ar: str
    nm: str

    def words(self, folder):
        """How a file is compiled with the library's headers."""
        return self.command + self.options + ["-isystem", os.path.join(folder, "include")] + self.headers


def gcc():
    """gcc, with its own headers behind the library's."""
    found = compilers.gcc()
    headers = [compilers.must(found.command + ["-print-file-name=" + name]).decode().strip() for name in ("include", "include-fixed")]
    options = [each for each in found.options if each not in FREESTANDING] + SMALLER + ["-fno-section-anchors"] + LINUX
    return Compiler(found.command, options + ["-nostdinc"], ["-Wl,--gc-sections,-e,_start"],
                    [word for name in headers for word in ("-isystem", name)], compilers.binutils("ar"), compilers.binutils("nm"))


def clang():
    """clang, with GNU's linker where there is one: LLVM's does not leave out what is not called."""
    found = compilers.clang()
    name = found.command[0]
    options = [each for each in found.options if each not in FREESTANDING] + SMALLER + ["-ftrap-function=abort", "-nostdlibinc"]
    tools = [compilers.tool(name.replace("clang", "llvm-" + each), "riscv64-linux-gnu-" + each) for each in ("ar", "nm")]
    try:
        linker, join = compilers.binutils("ld"), ["-Wl,--gc-sections,-e,_start"]
    except compilers.Missing:
        linker, join = compilers.tool(name.replace("clang", "ld.lld"), "ld.lld"), []
    # picolibc turns relaxation off for a linker below 15, and calls of static functions would have no relocation
    return Compiler(found.command + ["--ld-path=" + shutil.which(linker)], options + UNUSED, join, [], *tools)


def with_picolibc(compiler, source, folder):
    """Builds picolibc as it builds itself, and puts it into the folder."""
    build = os.path.join(folder, "build")
    os.makedirs(build)
    cross = os.path.join(build, "cross.txt")
    command = compiler.command + ["-nostdlib"] + compiler.headers
    with open(cross, "w") as file:
        file.write(CROSS.format(command=command, ar=compiler.ar, nm=compiler.nm, options=compiler.options))
    options = ["-D%s=%s" % pair for pair in OPTIONS.items()] + ["-Dprefix=" + os.path.abspath(folder)]
    asked(["meson", "setup", "made", source, "--cross-file", cross] + options, build)
    asked(["meson", "install", "-C", "made"], build)
    in_place_of_assembly(compiler, source, folder)


def in_place_of_assembly(compiler, source, folder):
    """The assembly of memset jumps into the middle of a row of stores, that of strcmp has data among its code: picolibc has both in C."""
    libc, archived = os.path.join(source, "newlib", "libc"), os.path.join("lib", "libc.a")
    words = compiler.words(folder) + ["-O2", "-w", "-I", os.path.join(libc, "locale")]
    for name in IN_C:
        path = os.path.abspath(os.path.join(folder, "build", name + ".o"))
        compilers.must(words + ["-c", os.path.join(libc, "string", name + ".c"), "-o", path])
        asked([compiler.ar, "d", archived, name + ".S.o"], folder)
        asked([compiler.ar, "rs", archived, path], folder)


def builtins(source):
    """The files of LLVM's functions that compilers call, as its own list has them."""
    with open(os.path.join(source, BUILTINS, "CMakeLists.txt")) as file:
        text = file.read()
    lists = [re.search(r"set\(%s\n(.*?)\)" % name, text, re.S).group(1).split() for name in LISTS]
    return sorted({name for names in lists for name in names} - NOT_BUILT)


def with_builtins(compiler, source, folder):
    """Adds LLVM's functions to the library, with the start and the system calls beside it."""
    objects = os.path.join(folder, "build")
    words = compiler.words(folder) + ["-O2", "-fno-builtin", "-w", "-c"]

    def compiled(name):
        path = os.path.join(objects, "builtin_" + name[:-2] + ".o")
        compilers.must(words + [os.path.join(source, BUILTINS, name), "-o", path])
        return path

    with ThreadPoolExecutor(os.cpu_count()) as pool:
        made = list(pool.map(compiled, builtins(source)))
    asked([compiler.ar, "rs", os.path.join("lib", "libc.a")] + [os.path.abspath(path) for path in made], folder)


def with_start(compiler, heap, folder):
    """Adds the start and the system calls."""
    words = compiler.words(folder) + ["-O2", "-DHEAP_BYTES=%dL" % (heap << 20), "-c"]
    compilers.must(words + [os.path.join(HERE, "system.c"), "-o", os.path.join(folder, "lib", "start.o")])


def with_command(compiler, folder):
    """Writes the compiler of hardened compilers."""
    with open(os.path.join(HERE, "cc.sh")) as file:
        text = file.read()
    place = os.path.abspath(folder)
    words = {"HERE": shlex.quote(place), "COMPILE": shlex.join(compiler.words(place)), "JOIN": shlex.join(compiler.join), "NM": compiler.nm}
    path = os.path.join(folder, "cc")
    with open(path, "w") as file:
        file.write(re.sub(r"@([A-Z]+)@", lambda word: words[word.group(1)], text))
    os.chmod(path, 0o755)


def built(folder, kind="gcc", heap=64, sources=None):
    """Builds the library in a folder that is not there yet, and answers the path of its compiler."""
    compiler = {"gcc": gcc, "clang": clang}[kind]()
    sources = sources or folder.rstrip("/") + ".sources"
    os.makedirs(folder)
    packed = [archive(name, sources, suite) for name, suite in SUITES.items()]
    picolibc, llvm = os.path.join(sources, "picolibc"), os.path.join(sources, "llvm")
    if not os.path.exists(picolibc):
        unpacked(packed[0], picolibc)
    if not os.path.exists(llvm):
        unpacked(packed[1], llvm, "/%s/" % BUILTINS)
    with_picolibc(compiler, os.path.abspath(picolibc), folder)
    with_builtins(compiler, llvm, folder)
    with_start(compiler, heap, folder)
    with_command(compiler, folder)
    shutil.rmtree(os.path.join(folder, "build"))
    return os.path.join(folder, "cc")
