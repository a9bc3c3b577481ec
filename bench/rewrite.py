#!/usr/bin/env python3
"""Times `rvcfi rewrite` on compiled objects, beside a linker that joins and a disassembler that prints the same objects.

    python3 bench/rewrite.py [--program PATH] [--runs N] [--functions N,N,..] [--keep FOLDER]

bench/README.md says what is compared and what came out.
"""

import argparse
import os
import shutil
import subprocess
import sys
import tempfile
from pathlib import Path

sys.dont_write_bytecode = True
sys.path.insert(0, str(Path(__file__).resolve().parents[1]))

from bench.verify import OBJDUMP, best_time, found, peak_memory
from tests.shared.families import GCC, compiled

LD = "riscv64-linux-gnu-ld"
FUNCTIONS = "58,235,950"  # objects of about 64, 256 and 1,024 KiB
MOST = 12  # times the object, the most memory that `rewrite` may take


def measure(program, folder, functions, runs):
    path = os.path.join(folder, "%d.o" % functions)
    content = compiled(folder, functions)
    with open(path, "wb") as out:
        out.write(content)
    outputs = [os.path.join(folder, "%d.%s" % (functions, name)) for name in ("img", "graph", "map")]
    joined = os.path.join(folder, "joined.o")
    rewrite = [program, "rewrite", path, "f0", "none"] + outputs
    row = {"size": len(content), "rewrite": best_time(rewrite, runs)}
    best_time([program, "verify"] + outputs[:2], 1, b"accepted\n")
    row["outputs"] = [os.path.getsize(output) for output in outputs]
    row["join"] = best_time([LD, "-r", "-o", joined, path], max(2, runs // 3))
    row["print"] = best_time([OBJDUMP, "-dr", joined], max(2, runs // 3))
    row["peak"] = peak_memory(rewrite)
    return row


def report(row, before, start):
    both = row["join"].wall + row["print"].wall
    print("%8d %8d %8d %8d  %7.2f / %6.2f  %7.2f  %8.2f  %6.1f  %8d  %5.2f" % (
        row["size"], *row["outputs"], *row["rewrite"], row["join"].wall, row["print"].wall, both / row["rewrite"].wall,
        row["peak"] // 1024, row["peak"] / row["size"]))
    if before:
        print("%8s times %.2f for %.2f times the bytes, without the time of the usage line" % (
            "", (row["rewrite"].processor - start) / (before["rewrite"].processor - start), row["size"] / before["size"]))
    if both <= row["rewrite"].wall:
        print("SLOWER than the two together")
    if row["peak"] > MOST * row["size"]:
        print("MORE than %d times the object" % MOST)


def main():
    parser = argparse.ArgumentParser(description="Times rvcfi rewrite.")
    parser.add_argument("--program", help="the rvcfi that is timed; it is built where none is named and there is none")
    parser.add_argument("--runs", type=int, default=9)
    parser.add_argument("--functions", default=FUNCTIONS, help="of each object")
    parser.add_argument("--keep", help="a folder in which the files stay")
    options = parser.parse_args()
    for tool in (LD, OBJDUMP, GCC[0]):
        if not shutil.which(tool):
            sys.exit("There is no %s. On Debian, `apt-get install gcc-riscv64-linux-gnu` installs it." % tool)
    program = found(options.program)
    with tempfile.TemporaryDirectory() as work:
        folder = options.keep or work
        os.makedirs(folder, exist_ok=True)
        usage = subprocess.run([program], stdout=subprocess.PIPE).stdout
        start = best_time([program], options.runs, usage)
        print("processors: %d; the usage line alone: %.2f / %.2f ms" % (os.cpu_count(), *start))
        print("milliseconds, wall / processor of rewrite and wall of the others: the least of the runs")
        print("%8s %8s %8s %8s  %16s  %7s  %8s  %6s  %8s  %5s" % (
            "object", "image", "graph", "map", "rewrite", "ld -r", "objdump", "ratio", "peak KiB", "times"))
        before = None
        for functions in options.functions.split(","):
            row = measure(program, folder, int(functions), options.runs)
            report(row, before, start.processor)
            before = row


if __name__ == "__main__":
    main()
