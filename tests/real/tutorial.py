#!/usr/bin/env python3
"""Runs the commands of docs/TUTORIAL.md in an empty folder and compares what they print with what the page says.

    python3 tests/real/tutorial.py [--program PATH] [--print]

A block that begins with ```sh is run, and what it prints must be the ```text block that follows it at once, if one does.
The program is crates/rvcfi/out/rvcfi where none is named. It needs gcc 12.2 and binutils 2.40, whose addresses the page has,
qemu, and what tests/real/explained.py needs; where one is missing nothing is run, and it says so. `--print` prints what each
block gave. The last line counts the blocks, and the status is 1 where one failed.
"""

import os
import re
import sys
import tempfile
from pathlib import Path

sys.dont_write_bytecode = True
sys.path.insert(0, str(Path(__file__).resolve().parents[2]))

from tests.real.explained import python_with_elftools
from tests.shared.command import Words
from tests.shared.paths import ROOT
from tools.sysroot import compilers
from tools.sysroot.compilers import Missing

PAGE = ROOT / "docs" / "TUTORIAL.md"
BLOCK = re.compile(r"^```sh\n(.*?)^```\n(?:```text\n(.*?)^```\n)?", re.M | re.S)
VERSIONS = [("gcc", "-dumpfullversion", "12.2.0"), ("ld", "--version", "2.40")]


def blocks():
    """The commands of the page, each with what they must print."""
    with open(PAGE, encoding="utf-8") as file:
        return BLOCK.findall(file.read())


def need():
    """Asks for the tools whose output the page has."""
    compilers.tool("qemu-riscv64")
    for name, word, version in VERSIONS:
        command = compilers.tool("riscv64-linux-gnu-" + name)
        if version not in compilers.run([command, word]).stdout.decode():
            raise Missing("%s of version %s" % (command, version))


def printed(program, python, folder):
    """What each block prints, one after another in one shell."""
    binaries, home = os.path.join(folder, "bin"), os.path.join(folder, "home")
    os.mkdir(binaries)
    os.mkdir(home)
    os.symlink(os.path.abspath(program), os.path.join(binaries, "rvcfi"))
    with open(os.path.join(binaries, "python3"), "w") as file:
        file.write("#!/bin/sh\nexec %s -B \"$@\"\n" % python)
    os.chmod(os.path.join(binaries, "python3"), 0o755)
    outputs = [os.path.join(folder, "output_%d" % number) for number in range(len(blocks()))]
    parts = ["{\n%s} > %s 2> /dev/null\n" % (text.replace("REPOSITORY", str(ROOT)), out)
             for (text, _), out in zip(blocks(), outputs)]
    given = dict(os.environ, HOME=home, PATH=binaries + ":" + os.environ["PATH"])
    compilers.run(["bash", "-s"], ("cd\n" + "".join(parts)).encode(), env=given)
    return [open(out, encoding="utf-8").read() if os.path.exists(out) else "not run" for out in outputs]


def main():
    words = Words(__doc__)
    words.add_argument("--print", action="store_true", dest="shown")
    options = words.parse_args()
    try:
        need()
        python = python_with_elftools()
    except Missing as what:
        print("not run, since there is no %s: tests/real/tutorial.py" % what)
        return 0
    with tempfile.TemporaryDirectory() as folder:
        found = printed(options.program, python, folder)
    failed = 0
    for (text, wanted), got in zip(blocks(), found):
        if options.shown:
            print("%s---\n%s" % (text, got))
        if got != wanted:
            failed += 1
            print("FAILED tutorial:\n%s--- printed\n%s--- not\n%s" % (text, got, wanted))
    print("%d passed, %d failed" % (len(found) - failed, failed))
    return 1 if failed else 0


if __name__ == "__main__":
    sys.exit(main())
