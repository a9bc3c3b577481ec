#!/usr/bin/env python3
"""Times `rvcfi link`, beside a linker that joins the same objects for `rvcfi rewrite`, and one object alone beside `rewrite`.

    python3 bench/link.py [--program PATH] [--runs N] [--counts N,N,..] [--names N,N,..] [--keep FOLDER]

bench/README.md says what is compared and what came out.
"""

import argparse
import os
import shutil
import sys
import tempfile
from pathlib import Path

sys.dont_write_bytecode = True
sys.path.insert(0, str(Path(__file__).resolve().parents[1]))

from bench.verify import best_times, found, peak_memory
from tests.shared.elf import CODE_FLAGS, FUNC, PROGBITS, RELA, STRTAB, SYMTAB, Section, object_file, relocation, symbol, words
from tests.shared.families import GCC, compiled

LD = "riscv64-linux-gnu-ld"
COUNTS = "10,100,1000"
NAMES = "1000000,2000000,4000000"
FAMILIES = ("one name", "one string", "two strings", "local")
EACH = 10  # functions of an object
AUIPC_RA, JALR_RA, RETURN, ADDI, SD, LD_RA, BACK = 0x00000097, 0x000080E7, 0x00008067, 0xFF010113, 0x00113423, 0x00813083, 0x01010113
CALL_PLT = 19
WORDS = [ADDI, SD, AUIPC_RA, JALR_RA, LD_RA, BACK, RETURN]


def calling(first, last):
    """An object of global functions, each of which calls the next, the last one another object's; where `last` is the end of all,
    it returns."""
    count = last - first
    code = words(*WORDS) * count
    names, symbols = bytearray(b"\0"), symbol(0, 0, 0, 0)
    for number in range(first, last + 1):
        here = number < last
        symbols += symbol(len(names), FUNC if here else 0x10, 1 if here else 0, 28 * (number - first) if here else 0, 28 if here else 0)
        names += b"function_%d\0" % number
    uses = b"".join(relocation(28 * k + 8, k + 2, CALL_PLT) for k in range(count))
    return object_file([Section(PROGBITS, code, CODE_FLAGS, align=4), Section(RELA, uses, link=3, info=1, align=8, entry=24),
                        Section(SYMTAB, symbols, link=4, info=1, align=8, entry=24), Section(STRTAB, bytes(names))])


def ending(number):
    """An object of one function, which returns."""
    names = b"\0function_%d\0" % number
    return object_file([Section(PROGBITS, words(RETURN), CODE_FLAGS, align=4),
                        Section(SYMTAB, symbol(0, 0, 0, 0) + symbol(1, FUNC, 1, 0, 4), link=3, info=1, align=8, entry=24), Section(STRTAB, names)])


def long_names(family, size):
    """An object of some `size` bytes, half of them symbols in no section and half the strings that their names stand in: one name
    of all; names that are each other's ends, in one string or in two equal ones by turns; local symbols of one name."""
    count, long = size // 48, size // 2
    strings = 2 if family == "two strings" else 1
    each = long // strings
    names = b"\0" + (b"n" * each + b"\0") * strings
    step = each * strings // count if family in ("one string", "two strings") else 0
    begins = [1 + k % strings * (each + 1) + k // strings * step for k in range(count)]
    symbols = symbol(0, 0, 0, 0) + symbol(len(names), FUNC, 1, 0, 4)
    symbols += b"".join(symbol(begin, 0 if family == "local" else 0x20, 0, 0) for begin in begins)
    return object_file([Section(PROGBITS, words(RETURN), CODE_FLAGS, align=4), Section(SYMTAB, symbols, link=3, info=1, align=8, entry=24),
                        Section(STRTAB, names + b"f\0")])


def put(folder, name, content):
    path = os.path.join(folder, name)
    with open(path, "wb") as file:
        file.write(content)
    return path


def joined(program, folder, count, runs):
    """Many objects that call each other: `link`, and `ld -r` with `rewrite`."""
    paths = [put(folder, "%d_%d.o" % (count, k), calling(EACH * k, EACH * (k + 1))) for k in range(count)]
    paths.append(put(folder, "%d_end.o" % count, ending(EACH * count)))
    outputs = [os.path.join(folder, "%d.%s" % (count, name)) for name in ("img", "graph", "map")]
    whole = os.path.join(folder, "%d_whole.o" % count)
    commands = [[program, "link", "plain", "function_0", "none", *outputs, *paths], [LD, "-r", "-o", whole, *paths],
                [program, "rewrite", whole, "function_0", "none", *outputs]]
    times = best_times(commands, runs, [None] * 3)
    size = sum(os.path.getsize(path) for path in paths)
    print("%8d %10d  %9.1f  %9.1f  %9.1f  %6.2f  %9d" % (
        count + 1, size, times[0].processor, times[1].processor, times[2].processor,
        (times[1].processor + times[2].processor) / times[0].processor, peak_memory(commands[0]) // 1024))


def alone(program, folder, runs):
    """One compiled object, by `link` and by `rewrite`."""
    path = put(folder, "alone.o", compiled(folder, 950))
    outputs = [os.path.join(folder, "alone.%s" % name) for name in ("img", "graph", "map")]
    link, rewrite = [program, "link", "plain", "f0", "none", *outputs, path], [program, "rewrite", path, "f0", "none", *outputs]
    times = best_times([link, rewrite], runs, [None] * 2)
    print("one object of %d bytes: link %.1f ms, rewrite %.1f, %.2f times" % (
        os.path.getsize(path), times[0].processor, times[1].processor, times[0].processor / times[1].processor))


def hostile(program, folder, family, size, runs):
    path = put(folder, "hostile.o", long_names(family, size))
    outputs = [os.path.join(folder, "hostile.%s" % name) for name in ("img", "graph", "map")]
    link, rewrite = [program, "link", "plain", "f", "none", *outputs, path], [program, "rewrite", path, "f", "none", *outputs]
    times = best_times([link, rewrite], runs, [None] * 2)
    print("%-12s %10d  %9.1f  %9.1f  %9d" % (
        family, os.path.getsize(path), times[0].processor, times[1].processor, peak_memory(link) // 1024))


def main():
    parser = argparse.ArgumentParser(description="Times rvcfi link.")
    parser.add_argument("--program", help="the rvcfi that is timed; it is built where none is named and there is none")
    parser.add_argument("--runs", type=int, default=9)
    parser.add_argument("--counts", default=COUNTS, help="of objects")
    parser.add_argument("--names", default=NAMES, help="bytes of objects with long names")
    parser.add_argument("--keep", help="a folder in which the files stay")
    options = parser.parse_args()
    for tool in (LD, GCC[0]):
        if not shutil.which(tool):
            sys.exit("There is no %s. On Debian, `apt-get install gcc-riscv64-linux-gnu` installs it." % tool)
    program = found(options.program)
    with tempfile.TemporaryDirectory() as work:
        folder = options.keep or work
        os.makedirs(folder, exist_ok=True)
        print("processor milliseconds, the least of the runs")
        print("%8s %10s  %9s  %9s  %9s  %6s  %9s" % ("objects", "bytes", "link", "ld -r", "rewrite", "ratio", "peak KiB"))
        for count in options.counts.split(","):
            joined(program, folder, int(count), options.runs)
        alone(program, folder, options.runs)
        print("%-12s %10s  %9s  %9s  %9s" % ("long names", "bytes", "link", "rewrite", "peak KiB"))
        for family in FAMILIES:
            for size in options.names.split(","):
                hostile(program, folder, family, int(size), max(1, options.runs // 3))


if __name__ == "__main__":
    main()
