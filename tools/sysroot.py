#!/usr/bin/env python3
"""Builds a C library for hardened programs, and a compiler that joins it to them: picolibc, and LLVM's functions that compilers call.

    python3 tools/sysroot.py FOLDER [--compiler gcc|clang] [--heap MIB] [--sources FOLDER]
    FOLDER/cc -O2 -o program.o FILE.c ..
    rvcfi rewrite program.o _start none program.img program.graph program.map

Both come from Debian's source packages, by apt (150 MB), which stay in FOLDER.sources, so that a second library needs no network
(`--sources`). They are compiled with the options of docs/COMPILING.md. It needs Linux, Python 3.9 and, on Debian,

    apt-get install gcc-riscv64-linux-gnu meson ninja-build

`FOLDER/cc` takes the words of a C compiler. Underneath are the system calls 63, 64 and 93, and a heap that is an array. It has the whole
of picolibc, so printf, malloc, qsort, strtod, math.h (all floating point by functions). It has no files but the three streams, no
clock, signals of others, threads, environment or words of a command line; `open` and its like fail with ENOSYS. `longjmp` ends a
hardened program in a handler; `cc` warns of it. Functions that run before `main` (constructors) are refused.
"""

import argparse
import os
import shutil
import sys

sys.dont_write_bytecode = True

from sysroot.build import built
from sysroot.compilers import Missing
from sysroot.debian import Absent


def main():
    words = argparse.ArgumentParser(description=__doc__, formatter_class=argparse.RawDescriptionHelpFormatter)
    words.add_argument("folder", metavar="FOLDER", help="where the library is made; it is not there yet")
    words.add_argument("--compiler", choices=["gcc", "clang"], default="gcc")
    words.add_argument("--heap", type=int, default=64, metavar="MIB", help="how much malloc can give (64)")
    words.add_argument("--sources", metavar="FOLDER", help="where the sources are, or go to (FOLDER.sources)")
    options = words.parse_args()
    if os.path.exists(options.folder):
        words.error("%s is there already" % options.folder)
    try:
        print(built(options.folder, options.compiler, options.heap, options.sources))
    except (Absent, Missing, RuntimeError) as what:
        shutil.rmtree(options.folder, ignore_errors=True)
        sys.exit("sysroot.py: %s" % what)


if __name__ == "__main__":
    main()
