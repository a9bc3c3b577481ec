#!/usr/bin/env python3
"""Times `rvcfi verify` on images of three sizes, beside a hash and a disassembler of the same files, with its peak memory; and on the
largest where masks have several stores behind them, and of a lean image.

    python3 bench/verify.py [--program PATH] [--runs N] [--sizes KIB,KIB,..] [--keep FOLDER]

README.md beside this file says what is measured and how the program is built.
"""

import argparse
import collections
import fcntl
import os
import resource
import subprocess
import sys
import tempfile
import time
from pathlib import Path

sys.dont_write_bytecode = True
sys.path.insert(0, str(Path(__file__).resolve().parents[1]))

from bench.images import pair
from bench.lean_images import lean_pair
from tests.shared.units import PAGE

HERE = os.path.dirname(os.path.abspath(__file__))
CRATE = os.path.join(HERE, "..", "crates", "rvcfi")
PROGRAM = os.path.join(CRATE, "out", "rvcfi")
OBJDUMP = "riscv64-linux-gnu-objdump"
SECONDS = 60  # until the program waits to write
KINDS = "", "grouped", "lean"

Times = collections.namedtuple("Times", "wall processor")


def found(program):
    """The program's path. Where none is named and the usual one is not there, it is proved and built."""
    if program is None and not os.path.exists(PROGRAM):
        subprocess.run(["rt", "run", "--", "verify", "data/a.img", "data/a.graph"], cwd=CRATE, check=True)
    path = os.path.abspath(program or PROGRAM)
    if not os.path.exists(path):
        sys.exit("%s is not there" % path)
    return path


def processor_time():
    used = resource.getrusage(resource.RUSAGE_CHILDREN)
    return used.ru_utime + used.ru_stime


def best_times(commands, runs, wants):
    """For each of some commands the least wall time and the least processor time of several runs, in milliseconds. The
    commands are run in turn, so that a machine's load meets all of them."""
    walls, used = [[] for _ in commands], [[] for _ in commands]
    for _ in range(runs):
        for command, want, wall, processor in zip(commands, wants, walls, used):
            before, begun = processor_time(), time.perf_counter()
            done = subprocess.run(command, stdout=subprocess.DEVNULL if want is None else subprocess.PIPE)
            wall.append(1000 * (time.perf_counter() - begun))
            processor.append(1000 * (processor_time() - before))
            if want is not None and done.stdout != want or want is None and done.returncode:
                sys.exit("%s: status %d, printed %r" % (" ".join(command), done.returncode, done.stdout))
    return [Times(min(wall), min(processor)) for wall, processor in zip(walls, used)]


def best_time(command, runs, want=None):
    """The same of one command."""
    return best_times([command], runs, [want])[0]


def waiting(child):
    """What /proc tells of a child, once it waits to write to a pipe. Where the kernel does not name what a process
    waits for, it waits for that once it sleeps, since it reads nothing but files."""
    deadline = time.monotonic() + SECONDS
    while time.monotonic() < deadline:
        with open("/proc/%d/wchan" % child.pid) as wait, open("/proc/%d/status" % child.pid) as status:
            waits, lines = wait.read(), status.read()
        if "State:\tZ" in lines:
            sys.exit("%s: ended, and wrote nothing" % " ".join(child.args))
        if "pipe_w" in waits or waits == "0" and "State:\tS" in lines:
            return lines
        time.sleep(0.001)
    child.kill()
    sys.exit("%s: wrote nothing in %d seconds" % (" ".join(child.args), SECONDS))


def peak_memory(command):
    """The most bytes that the process ever had resident (VmHWM), read as it writes its answer.

    Its standard output is a pipe that is full, so it waits there. `ru_maxrss` would count this script's own
    memory too, since a child has that until it runs its program.
    """
    reader, writer = os.pipe()
    size = fcntl.fcntl(writer, fcntl.F_GETPIPE_SZ)
    os.write(writer, bytes(size))
    child = subprocess.Popen(command, stdout=writer)
    os.close(writer)
    lines = waiting(child).splitlines()
    peak = next(int(line.split()[1]) for line in lines if line.startswith("VmHWM"))
    with os.fdopen(reader, "rb") as rest:
        rest.read()
    child.wait()
    return peak * 1024


def written(folder, kib, kind=""):
    """The paths of a pair's files, their sizes, and how many units of each kind the image has."""
    image, graph, counts = lean_pair(kib * 1024) if kind == "lean" else pair(kib * 1024, grouped=kind == "grouped")
    name = "%d%s" % (kib, "." + kind if kind else "")
    paths = [os.path.join(folder, "%s.%s" % (name, end)) for end in ("img", "graph")]
    for path, content in zip(paths, (image, graph)):
        with open(path, "wb") as out:
            out.write(content)
    return paths, len(image), len(graph), counts


def measure(program, folder, kib, runs):
    paths, image, graph, counts = written(folder, kib)
    verify = [program, "verify"] + paths
    ends = ["--start-address=%d" % PAGE, "--stop-address=%d" % (PAGE + kib * 1024)]
    dump = [OBJDUMP, "-D", "-b", "binary", "-m", "riscv:rv64"] + ends + [paths[0]]
    row = {"kib": kib, "image": image, "graph": graph, "units": sum(counts.values()), "counts": counts}
    row["verify"], row["hash"] = best_times([verify, ["sha256sum"] + paths], runs, [b"accepted\n", None])
    row["objdump"], = best_times([dump], max(2, runs // 3), [None])
    row["peak"] = peak_memory(verify)
    row["files"] = image + graph
    return row


def compare(program, folder, kib, runs):
    """The times of `verify` on one size where each mask has one store behind it, where it has several, and of a lean image, run in
    turn."""
    sides = [written(folder, kib, kind) for kind in KINDS]
    times = best_times([[program, "verify"] + side[0] for side in sides], runs, [b"accepted\n"] * len(KINDS))
    return [{"units": sum(counts.values()), "files": image + graph, "time": time} for (_, image, graph, counts), time in zip(sides, times)]


def report_kinds(kib, sides, start):
    """How many times as long a byte takes where masks have several stores, and in a lean image, without the time of the usage line."""
    print("%d KiB of code, one store behind a mask, several, and lean:" % kib)
    one = sides[0]
    for kind, side in zip(KINDS, sides):
        times = [(side["time"][k] - start[k]) / (one["time"][k] - start[k]) for k in (0, 1)]
        less = one["files"] / side["files"]
        print("%8s: %d units, %d bytes of files: verify %.2f / %.2f; %.2f / %.2f times as long a byte of code, %.2f / %.2f a byte of the files" % (
            kind or "one", side["units"], side["files"], *side["time"], *times, less * times[0], less * times[1]))
    print()


def report(rows, base, start):
    print("processors: %d" % os.cpu_count())
    print("the usage line alone: %.2f ms, peak %d KiB" % (start.wall, base // 1024))
    print()
    print("milliseconds, wall / processor: the least of the runs")
    print("%8s %7s %8s %8s  %16s  %16s  %13s  %18s  %13s" % (
        "code KiB", "units", "image", "graph", "verify", "sha256sum", "ratio", "objdump", "ratio"))
    for row in rows:
        verify, hashed, objdump = row["verify"], row["hash"], row["objdump"]
        print("%8d %7d %8d %8d  %7.2f / %6.2f  %7.2f / %6.2f  %5.2f / %5.2f  %8.2f / %7.2f  %5.1f / %5.1f" % (
            row["kib"], row["units"], row["image"], row["graph"], verify.wall, verify.processor, hashed.wall, hashed.processor,
            hashed.wall / verify.wall, hashed.processor / verify.processor,
            objdump.wall, objdump.processor, objdump.wall / verify.wall, objdump.processor / verify.processor))
    if rows[-1]["hash"].wall < rows[-1]["verify"].wall:
        print("verify of the largest takes longer than sha256sum of the same files")
    print()
    for before, row in zip(rows, rows[1:]):
        print("from %d to %d KiB: code times %.2f, files times %.2f, verify times %.2f (without the time of the usage line)" % (
            before["kib"], row["kib"], row["kib"] / before["kib"], row["files"] / before["files"],
            (row["verify"].wall - start.wall) / (before["verify"].wall - start.wall)))
    print()
    for row in rows:
        print("%d KiB: peak %d KiB, %.2f times the files; without the %d KiB of the usage line %.2f times" % (
            row["kib"], row["peak"] // 1024, row["peak"] / row["files"], base // 1024,
            (row["peak"] - base) / row["files"]))
    print()
    for row in rows:
        print("%d KiB:" % row["kib"], ", ".join("%s %d" % item for item in row["counts"].items()))
    print()


def main():
    parser = argparse.ArgumentParser(description="Times rvcfi verify.")
    parser.add_argument("--program", help="the rvcfi that is timed; it is built where none is named and there is none")
    parser.add_argument("--runs", type=int, default=9)
    parser.add_argument("--sizes", default="64,256,1024", help="KiB of code, at most 1024")
    parser.add_argument("--keep", help="a folder in which the files stay")
    options = parser.parse_args()
    program = found(options.program)
    with tempfile.TemporaryDirectory() as work:
        folder = options.keep or work
        os.makedirs(folder, exist_ok=True)
        usage = subprocess.run([program], stdout=subprocess.PIPE).stdout
        base, (start,) = peak_memory([program]), best_times([[program]], options.runs, [usage])
        sizes = [int(kib) for kib in options.sizes.split(",")]
        rows = [measure(program, folder, kib, options.runs) for kib in sizes]
        sides = compare(program, folder, sizes[-1], options.runs)
    report(rows, base, start)
    report_kinds(sizes[-1], sides, start)


if __name__ == "__main__":
    main()
