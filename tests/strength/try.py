#!/usr/bin/env python3
"""Tries more wrong bodies: `python3 tests/strength/try.py [CRATE..]`.

The folder of each crate here holds edits like those of crates/CRATE/must-fail, which the gate has no
time for. They are put in the place of those in a copy of the repository, where each crate must be
proved as it stands, and the prover must refuse it with each edit. With no name all are tried. That takes
some minutes a crate, since the crates below are proved first, and gigabytes in the folder for temporary
files.
"""
import shutil
import subprocess
import sys
import tempfile
from pathlib import Path

HERE = Path(__file__).resolve().parent
ROOT = HERE.parent.parent


def tried(copy, crate):
    """Whether a crate of the copy is proved, and refused with each of its edits."""
    edits = copy / "crates" / crate / "must-fail"
    shutil.copytree(HERE / crate, edits)
    if not list(edits.glob("*.edit")):
        print(f"{crate}: there is no edit")
        return False
    if subprocess.run(["rt", "check"], cwd=edits.parent).returncode:
        print(f"{crate}: not proved as it stands")
        return False
    return subprocess.run(["rt", "must-fail", crate], cwd=copy).returncode == 0


def main():
    here = sorted(folder.name for folder in HERE.iterdir() if folder.is_dir())
    crates = list(dict.fromkeys(sys.argv[1:])) or here
    unknown = [crate for crate in crates if crate not in here]
    if unknown:
        return f"no edits of {', '.join(unknown)} here, only of {', '.join(here)}"
    if not shutil.which("rt"):
        return "there is no rt, the toolchain's command"
    with tempfile.TemporaryDirectory() as folder:
        copy = Path(folder) / "rvcfi"
        shutil.copytree(ROOT / "crates", copy / "crates", ignore=shutil.ignore_patterns("out", "must-fail"))
        for name in ("crates.txt", "HANDLES"):
            shutil.copy(ROOT / name, copy)
        failed = [crate for crate in crates if not tried(copy, crate)]
    return f"failed: {', '.join(failed)}" if failed else 0


sys.exit(main())
