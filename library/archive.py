#!/usr/bin/env python3
"""Proves a static library of crates.txt and builds its archive.

    library/archive.py CRATE ARCHIVE [--target TRIPLE]

Where the libraries below it stand in crates/*/out, as `rt ci` leaves those that it proved in a fresh clone, and nothing that they are made of
has changed since, CRATE alone is proved over them, as `rt ci` proves it. Else `rt lib` proves them all, and keeps its work.
Printed is how, with the last line of the proof; where it fails all that it said, and the status is 1.
"""

import os
import shutil
import subprocess
import sys
from pathlib import Path

CRATES = Path(__file__).resolve().parent.parent / "crates"
LISTED = CRATES.parent / "crates.txt"


def stands_on():
    """What each crate stands on, by crates.txt."""
    rows = [line.partition("#")[0].partition(":") for line in LISTED.read_text().splitlines()]
    return {head.split()[0]: rest.split() for head, _, rest in rows if head.strip()}


def below(crate, uses):
    """The libraries of the repository below a crate."""
    own = {name for name in uses[crate] if name in uses}
    return own.union(*(below(name, uses) for name in own))


def built(crate):
    """Where the library that a crate is stands, if it is built."""
    return CRATES / crate / "out" / "rlib" / (crate + ".rlib")


def changed(path):
    """When a file or folder last changed, also by a move or a copy that keeps its time."""
    status = path.stat()
    return max(status.st_mtime_ns, status.st_ctime_ns)


def are_left(crates):
    """Whether the libraries are there, and the oldest is newer than the newest file or folder that any of them is made of."""
    if not all((built(crate) / "format").is_file() for crate in crates):
        return False
    folders = [CRATES / crate / part for crate in crates for part in ("src", "specs", "proofs") if (CRATES / crate / part).is_dir()]
    sources = [LISTED, *folders, *(path for folder in folders for path in folder.rglob("*"))]
    return max(map(changed, sources)) < min(built(crate).stat().st_mtime_ns for crate in crates)


def build_over(crate, uses, words):
    """The command that proves a crate over the libraries that are built, and writes its archive; `rattle build --help` tells of it."""
    kit = Path(subprocess.check_output(["rt", "doc"], text=True).strip()).parent
    passed = {name: built(name) if name in uses else kit / "rlibs" / (name + ".rlib") for name in ["std", *uses[crate]]}
    folders = [kit / "rlibs", *sorted(built(name).parent for name in below(crate, uses))]
    return [str(kit / "bin" / "rattle"), "build", "--crate-name", crate, "src/lib.rt", "--crate-type", "staticlib", "--links", crate + "=",
            *(word for name, library in passed.items() for word in ("--extern", "%s=%s" % (name, library))),
            *(word for folder in folders for word in ("-L", "dependency=%s" % folder)),
            "--antt-project", str(kit / "rattle" / "logic" / "antt-project.json"), "--logic-built", str(kit / "logic_built"),
            "--toolchain", str(kit / "toolchain"), "--backend", "llvm", "--jobs", str(min(2, os.cpu_count() or 1)), *words]


def proved(crate, command, how):
    """Runs a command in a crate's folder, and tells how it was proved; what it said where it was not."""
    channels = {"stdin": subprocess.DEVNULL, "stdout": subprocess.PIPE, "stderr": subprocess.STDOUT, "encoding": "utf-8", "errors": "replace"}
    done = subprocess.run(command, cwd=CRATES / crate, **channels)
    lines = [line for line in done.stdout.splitlines() if line.startswith("logic=proved ")]
    if done.returncode == 0 and lines:
        print("%s, %s: %s" % (crate, how, lines[-1]))
        return True
    print("%s is not proved %s:\n%s" % (crate, how, done.stdout))
    return False


def main(crate, archive, *words):
    if not shutil.which("rt"):
        sys.exit("there is no rt, the kit's command: README.md, \"Build and test\"")
    uses, archive, own = stands_on(), Path(archive).resolve(), CRATES / crate / "out" / ("lib%s.a" % crate)
    if are_left(below(crate, uses)) and proved(crate, [*build_over(crate, uses, words), "-o", str(archive)], "over built libraries"):
        return 0
    if not proved(crate, ["rt", "lib", *words], "by rt lib"):
        return 1
    shutil.copyfile(own, archive)
    return 0


if __name__ == "__main__":
    sys.exit(main(*sys.argv[1:]))
