#!/usr/bin/env python3
"""Times how an object is read as a program, on objects that are hard to read and on a compiled one.

    python3 bench/objects.py [--program PATH] [--runs N] [--sizes MIB,MIB,..] [--families NAME,NAME,..] [--work FOLDER]
    python3 bench/objects.py --tool PATH [--work FOLDER]

The second form times `rvcfi rewrite` on objects of one to two megabytes whose sections are the same bytes of the file.

README.md beside this file says what is measured and how the program is built.
"""

import argparse
import os
import shutil
import subprocess
import sys
import tempfile
from pathlib import Path

sys.dont_write_bytecode = True
sys.path.insert(0, str(Path(__file__).resolve().parents[1]))

from bench.verify import OBJDUMP, best_time, peak_memory
from tests.shared.families import FAMILIES, GCC, OVERLAPPING, compiled, shared_code, shared_data, shared_relocations

TOP = os.path.join(os.path.dirname(os.path.abspath(__file__)), "..")
NAME = "object_bench"
LIBRARIES = "elf_object obj_items obj_program tool_io"
FUNCTIONS = 960  # of the compiled object, which has about 1 MiB then
SMALL = 16, 32, 64  # KiB of a file whose sections are the same bytes: what is made of it grows with the square
KIB, MIB = 1 << 10, 1 << 20
SHARED = {  # objects of few bytes that ask for many
    "10,000 sections of a megabyte of data": lambda: shared_data(10000, MIB),
    "1,000 sections of data with 10,000 relocations": lambda: shared_relocations(1000, 10000),
    "400 sections of a megabyte of code": lambda: shared_code(400, MIB),
    "10,000 sections of a megabyte of code": lambda: shared_code(10000, MIB),
}

SOURCE = """\
//! Reads a file as an object, and as a program.
#![tactic(auto)]

use elf_object::Object;
use obj_items::items;
use std::alloc::{AllocError, Global};
use std::rt::Env;
use std::{env, io};
use tool_io::{Files, HostFiles};

/// The words of the command line.
fn words<R: Env + AllocGlobal>(rt: &R) -> io::Result<Vec<String>> {
    let mut words = Vec::new(rt.alloc());
    for word in env::args(rt)? {
        words.push(word)?;
    }
    Ok(words)
}

/// What an object is as a program.
fn program(alloc: Global, object: &Object) -> Result<String, AllocError> {
    match items(alloc, object) {
        Ok(items) => format!(in alloc; "places {}", items.count()),
        Err(end) => format!(in alloc; "refused {end}"),
    }
}

/// What a file is: as an object, and where `items` is asked as a program.
fn told(alloc: Global, asked: &str, file: &[u8]) -> Result<String, AllocError> {
    match Object::read(alloc, file) {
        Ok(object) => {
            if asked == "items" {
                program(alloc, &object)
            } else {
                format!(in alloc; "sections {}", object.sections())
            }
        }
        Err(end) => format!(in alloc; "refused {end}"),
    }
}

/// What the file of this name is.
fn read(rt: &HostRuntime, asked: &str, name: &str) -> Result<String, AllocError> {
    let alloc = rt.alloc();
    let mut files = HostFiles::new(alloc, rt);
    match files.read(alloc, name, 1 << 30) {
        Ok(file) => told(alloc, asked, &file),
        Err(_) => format!(in alloc; "not read"),
    }
}

fn main(rt: HostRuntime) -> io::Result<()> {
    let words = words(&rt)?;
    let [_, asked, name] = words.as_slice() else {
        return println!(rt; "usage: object_bench read|items FILE");
    };
    let text = read(&rt, asked.as_str(), name.as_str())?;
    println!(rt; "{text}")
}
"""


def built(folder):
    """The program, proved and built in a copy of the repository's crates with one more."""
    crates = os.path.join(folder, "crates")
    shutil.copytree(os.path.join(TOP, "crates"), crates, ignore=shutil.ignore_patterns("out", "must-fail"))
    with open(os.path.join(TOP, "crates.txt")) as listed, open(os.path.join(folder, "crates.txt"), "w") as out:
        out.write(listed.read() + "%s: %s\n" % (NAME, LIBRARIES))
    crate = os.path.join(crates, NAME)
    os.makedirs(os.path.join(crate, "src"))
    with open(os.path.join(crate, "src", "main.rt"), "w") as out:
        out.write(SOURCE)
    subprocess.run(["rt", "run"], cwd=crate, check=True)
    return os.path.join(crate, "out", NAME)


def measure(program, path, content, runs):
    with open(path, "wb") as out:
        out.write(content)
    read, asked = [program, "read", path], [program, "items", path]
    told = subprocess.run(asked, check=True, capture_output=True, text=True).stdout.strip()
    if not told.startswith("places "):
        sys.exit("%s: printed %r" % (" ".join(asked), told))
    row = {"size": len(content), "told": told}
    row["read"], row["items"] = best_time(read, runs), best_time(asked, runs)
    row["peak"] = peak_memory(asked)
    return row


def report(name, row, before, start):
    grown = ""
    if before:
        grown = "times %.2f for %.2f times the bytes" % (
            (row["items"].processor - start) / (before["items"].processor - start), row["size"] / before["size"])
    print("%-23s %9d  %8.2f / %8.2f  %8.2f / %8.2f %8d %6.2f  %-13s %s" % (
        name, row["size"], *row["read"], *row["items"], row["peak"] // 1024, row["peak"] / row["size"], row["told"],
        grown), flush=True)


def compare(program, folder, runs):
    """A compiled object, beside a disassembler that prints its relocations too."""
    path = os.path.join(folder, "compiled.o")
    row = measure(program, path, compiled(folder, FUNCTIONS), runs)
    report("compiled", row, None, 0)
    dump = best_time([OBJDUMP, "-dr", path], max(2, runs // 3))
    print("%s -dr of it: %.2f ms, %.1f times as long; processor %.2f and %.2f ms, %.1f times" % (
        OBJDUMP, dump.wall, dump.wall / row["items"].wall, row["items"].processor, dump.processor,
        dump.processor / row["items"].processor))


def grow(program, folder, family, sizes, runs, start):
    before = None
    for size in sizes:
        row = measure(program, os.path.join(folder, "object.o"), family(size), runs)
        report(family.__name__, row, before, start.processor)
        before = row


def shared(tool, folder):
    """What `rewrite` says of each object whose sections are the same bytes, and what that costs."""
    path, made = os.path.join(folder, "shared.o"), [os.path.join(folder, name) for name in ("image", "graph", "map")]
    for name, content in SHARED.items():
        with open(path, "wb") as out:
            out.write(content())
        command = ["time", "-f", "%e %U %S %M", tool, "rewrite", path, "f", "none"] + made
        done = subprocess.run(command, capture_output=True, text=True)
        wall, user, system, peak = done.stderr.split()[-4:]
        print("%-47s %9d bytes  %7s s, processor %.2f s  %8d KiB  status %d  %s" % (
            name, os.path.getsize(path), wall, float(user) + float(system), int(peak), done.returncode, done.stdout.strip()),
            flush=True)


def main():
    names = [family.__name__ for family in FAMILIES + OVERLAPPING]
    parser = argparse.ArgumentParser(description="Times how objects are read as programs.")
    parser.add_argument("--program", help="the program that is timed; it is built where none is named")
    parser.add_argument("--runs", type=int, default=5)
    parser.add_argument("--sizes", default="1,4,16,64", help="MiB of a file")
    parser.add_argument("--families", default=",".join(names), help="of " + ", ".join(names))
    parser.add_argument("--work", help="a folder for the crate and the files, which stay there")
    parser.add_argument("--tool", help="the program rvcfi, which is timed on objects whose sections are the same bytes")
    options = parser.parse_args()
    if options.tool:
        with tempfile.TemporaryDirectory() as work:
            shared(os.path.abspath(options.tool), options.work or work)
        return
    for tool in (OBJDUMP, GCC[0]):
        if not shutil.which(tool):
            sys.exit("There is no %s. On Debian, `apt-get install gcc-riscv64-linux-gnu` installs it." % tool)
    with tempfile.TemporaryDirectory() as work:
        folder = options.work or work
        os.makedirs(folder, exist_ok=True)
        program = os.path.abspath(options.program) if options.program else built(folder)
        start = best_time([program], options.runs)
        print("processors: %d; the usage line alone: %.2f / %.2f ms" % (os.cpu_count(), *start))
        print("milliseconds, wall / processor: the least of the runs; growth is of the processor time of items")
        print("%-23s %9s  %19s  %19s %8s %6s  %s" % ("", "bytes", "read", "items", "peak KiB", "a byte", "told"))
        compare(program, folder, options.runs)
        sizes = [int(size) * MIB for size in options.sizes.split(",")]
        for family in FAMILIES + OVERLAPPING:
            if family.__name__ in options.families.split(","):
                grow(program, folder, family, [size * KIB for size in SMALL] if family in OVERLAPPING else sizes,
                     options.runs, start)


if __name__ == "__main__":
    main()
