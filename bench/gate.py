#!/usr/bin/env python3
"""Runs the gate and tells what each crate took of it: `python3 bench/gate.py [--kept | --first] [--top N]`.

Runs `rt ci --anew` at the top of the repository, so that all is proved and tried from nothing (`--kept`: only what no earlier run on this
machine passed), and looks each second at the processes of the prover. Printed are the minutes of the clock, and by crate the processor
seconds of its proof, of its tests' proof and of its must-fail edits, the dearest first, all or N of them, with their sums. What a process
takes in its last second is not seen. Other work on the machine makes the clock's time longer, and hardly the processor's.

`--first` runs README's first command in its place, which proves and builds the program alone. It is from nothing only in a new clone, on a
machine where no other one was checked: what those kept lies beside the kit, in the folder `rattle-kept`.
"""

import argparse
import collections
import os
import subprocess
import sys
import time
from pathlib import Path

ROOT = Path(__file__).resolve().parent.parent
TICKS = os.sysconf("SC_CLK_TCK")
KINDS = ("proof", "tests", "edits")
FIRST = ["rt", "run", "--", "verify", "data/a.img", "data/a.graph"]


def words(process):
    """The command line of a process."""
    return (process / "cmdline").read_bytes().decode(errors="replace").split("\0")


def seconds(process):
    """The processor seconds of a process by itself, and when it began."""
    fields = (process / "stat").read_text().rpartition(")")[2].split()
    return (int(fields[11]) + int(fields[12])) / TICKS, fields[19]


def looked_at(found):
    """Notes what the prover's processes have taken so far: by process the crate, the kind and the seconds."""
    for process in Path("/proc").glob("[0-9]*"):
        try:
            line = words(process)
            if "--crate-name" not in line or "rattle" not in line[0]:
                continue
            crate = line[line.index("--crate-name") + 1]
            inside = os.readlink(process / "cwd")
            taken, begun = seconds(process)
        except (OSError, ValueError, IndexError):
            continue  # it has ended
        if inside != str(ROOT / "crates" / crate) and not Path(inside).name.startswith("rt-edit"):
            continue  # of another run
        kind = "tests" if "--test" in line else "edits" if "rt-edit" in inside else "proof"
        found[process.name, begun] = crate, kind, taken


def gate(command, folder=ROOT):
    """Runs the gate. Answers its status, the minutes of the clock, and by crate and kind the seconds."""
    found, begun = {}, time.monotonic()
    with subprocess.Popen(command, cwd=folder) as run:
        while run.poll() is None:
            looked_at(found)
            time.sleep(1)
    sums = collections.defaultdict(lambda: dict.fromkeys(KINDS, 0.0))
    for crate, kind, taken in found.values():
        sums[crate][kind] += taken
    return run.returncode, (time.monotonic() - begun) / 60, sums


def main():
    asked = argparse.ArgumentParser(description=__doc__.split("\n")[0])
    which = asked.add_mutually_exclusive_group()
    which.add_argument("--kept", action="store_true")
    which.add_argument("--first", action="store_true")
    asked.add_argument("--top", type=int)
    asked = asked.parse_args()
    if asked.first:
        status, minutes, sums = gate(FIRST, ROOT / "crates" / "rvcfi")
    else:
        status, minutes, sums = gate(["rt", "ci"] + ([] if asked.kept else ["--anew"]))
    print(f"\n{minutes:.0f} minutes of the clock, {sum(sum(each.values()) for each in sums.values()) / 60:.0f} processor minutes\n")
    print("| crate | " + " | ".join(KINDS) + " |\n|---|---|---|---|")
    for crate, each in sorted(sums.items(), key=lambda row: -sum(row[1].values()))[:asked.top]:
        print(f"| `{crate}` | " + " | ".join(f"{each[kind]:.0f}" for kind in KINDS) + " |")
    print("| all | " + " | ".join(f"{sum(each[kind] for each in sums.values()):.0f}" for kind in KINDS) + " |")
    return status


if __name__ == "__main__":
    sys.exit(main())
