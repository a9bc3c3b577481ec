#!/usr/bin/env python3
"""What the recommended options give and cost, on programs of Debian's packages that are joined with a C library.

    python3 bench/packages.py [--program PATH] [--sysroot FOLDER] [--sources FOLDER] [--compiler gcc|clang] [NAME ..]

The programs are those of tests/real/libraries.py, the library that of tools/sysroot.py. Each is compiled with the options of the library, with
tables of labels for each `switch` (-fjump-tables), and with gcc's -fsection-anchors, and hardened in the form `plain`; it must print what
the host's build prints. For each: computed transfers, classes, how many targets the largest class has, bytes of code, and steps of
the run, not hardened (as qemu-riscv64 counts them) and hardened.
"""

import os
import sys
import tempfile
from pathlib import Path

sys.dont_write_bytecode = True
sys.path.insert(0, str(Path(__file__).resolve().parents[1]))

from tests.real import libraries
from tests.shared import programs
from tests.shared.command import Words

CHOICES = {
    "gcc": [[], ["-fjump-tables"], ["-fno-data-sections", "-fsection-anchors"]],
    "clang": [[], ["-fjump-tables"]]}
HEADS = "program", "and also", "sites", "classes", "largest", "code", "hardened", "times", "steps", "hardened", "times"


def row_of(tool, made, compiler, options, wanted):
    """The cells of a program with these options."""
    path = made.joined(compiler, "_%s" % "".join(options), *options)
    plain = programs.linked(path)
    got, steps = programs.counted(plain, made.input)
    hardened = programs.Hardened(tool, path)
    if hardened.told[0]:
        return [made.package.name, " ".join(options), hardened.told[1].decode().strip()]
    _, output, report = hardened.run(made.input)
    if got != wanted or hardened.verified()[0] or (output, report["stop"][-2:]) != (wanted[0], ["exit", str(wanted[1])]):
        sys.exit("%s: %.200r %s, not %.200r" % (made.package.name, output, report["stop"], wanted))
    sizes, more = (programs.code_size(plain), hardened.code_size()), int(report["steps"][0])
    classes = [len(line.split()) - 2 for line in open(hardened.graph) if line.startswith("class ")]
    return [made.package.name, " ".join(options), len(hardened.classes()[1]), len(classes), max(classes, default=0),
            *map("{:,}".format, sizes), "%.2f" % (sizes[1] / sizes[0]), *map("{:,}".format, (steps, more)), "%.2f" % (more / steps)]


def main():
    words = Words(__doc__)
    words.add_argument("names", metavar="NAME", nargs="*", help="all where none is named")
    words.add_argument("--sysroot", metavar="FOLDER", help="the library's folder, where it is built if it is not there")
    words.add_argument("--sources", metavar="FOLDER", help="where the packages are, or go to")
    words.add_argument("--compiler", choices=list(CHOICES), default="gcc")
    options = words.parse_args()
    with tempfile.TemporaryDirectory() as folder:
        options.sources = options.sources or os.path.join(folder, "sources")
        compiler = libraries.compiler_of(options, folder)
        print("| %s |\n%s|" % (" | ".join(HEADS), "|---" * len(HEADS)))
        for package in libraries.PACKAGES:
            if options.names and package.name not in options.names:
                continue
            made = libraries.Built(package, options.sources, folder)
            wanted = made.on_host()
            for choice in CHOICES[options.compiler]:
                cells = row_of(options.program, made, compiler, choice, wanted)
                print("| %s |" % " | ".join(map(str, cells)), flush=True)


if __name__ == "__main__":
    main()
