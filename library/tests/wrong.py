#!/usr/bin/env python3
"""Tries wrong bodies of the library's C, headers and Rust, each of which library/test.py must refuse.

    python3 library/tests/wrong.py [NUMBER ..]

They are put into a copy, over the archives that library/build.sh has built; a warning of a compiler refuses none. With no number all are
tried, in half a minute each. The last line counts them, and the status is 1 where one passes.
"""

import shutil
import subprocess
import sys
import tempfile
from pathlib import Path

REPOSITORY = Path(__file__).resolve().parents[2]
COPIED = ["library", "tests", "docs", "bench", "tools"]
HEAP, ARENA, HEADER, RUN = "c/heap.c", "c/arena.c", "include/rvcfi.h", "include/rvcfi_run.h"
FFI, CRATE, REJECTION = ("rust/rvcfi/src/%s.rs" % name for name in ("ffi", "lib", "rejection"))
EDITS = [  # a file of the library, a text that stands in it once, and what comes in its place
    (HEAP, "answer.ok = block != NULL;", "answer.ok = true;"),
    (HEAP, "answer.ok ? block : nothing;", "answer.ok || nothing[0] == 0 ? block : nothing;"),
    (HEAP, "return size != 0 ? size : 1;", "return size;"),
    (HEAP, "realloc(block, at_least_one(size))", "malloc(at_least_one(size))"),
    (HEAP, "realloc(block, at_least_one(size))", "realloc(block, at_least_one(kept))"),
    (HEAP, "free(block);", "(void)block;"),
    (HEAP, "tried(malloc(at_least_one(size)))", "tried(size > 4000 ? NULL : malloc(at_least_one(size)))"),
    (HEAP, "tried(malloc(at_least_one(size)))", "tried(malloc(at_least_one(size - size / 64)))"),
    (ARENA, "#define ALIGNMENT 16u", "#define ALIGNMENT 8u"),
    (ARENA, "&& size <= sizeof arena.bytes", "&& size < sizeof arena.bytes"),
    (ARENA, "at < sizeof arena.bytes && ", ""),
    (ARENA, "at + (size != 0 ? size : 1)", "at + size"),
    (ARENA, "kept < size ? kept : size", "kept < size ? kept / 2 : size"),
    (ARENA, "        blocks -= 1;\n", ""),
    (ARENA, "    newest = used;\n}", "    newest = 0;\n}"),
    (ARENA, "    if (blocks == 0)\n        used = 0;\n    else if", "    if"),
    (ARENA, "        if (!fits(newest, size))\n            return tried(false, 0);\n", ""),
    (HEADER, "    uint64_t data_offset;    /* the initialised data in the file */\n    uint64_t data_length;\n",
     "    uint64_t data_length;\n    uint64_t data_offset;\n"),
    (HEADER, "uint64_t first; ", "uint32_t first; "),
    (HEADER, "UNIT     3u\n#define RVCFI_RULE_TARGET   4u", "UNIT     4u\n#define RVCFI_RULE_TARGET   3u"),
    (HEADER, "#define RVCFI_BYTE  2u", "#define RVCFI_BYTE  4u"),
    (HEADER, "#define RVCFI_RANGE 2u", "#define RVCFI_RANGE 4u"),
    (HEADER, "#define RVCFI_CALLS_MOST     8u", "#define RVCFI_CALLS_MOST     4u"),
    (HEADER, "#define RVCFI_CALLS_BAD_GRAPH 2u", "#define RVCFI_CALLS_BAD_GRAPH 3u"),
    (HEADER, "#define RVCFI_NO_MEMORY 4u", "#define RVCFI_NO_MEMORY 5u"),
    (HEADER, "#define RVCFI_PLAN_NO_IMAGE 1u", "#define RVCFI_PLAN_NO_IMAGE 2u"),
    (HEADER, "rvcfi_plan(const uint8_t *image, size_t", "rvcfi_plan(const uint8_t *image, uint32_t"),
    (HEADER, "#ifdef __cplusplus\n}\n#endif", ""),
    (RUN, "    uint64_t value;\n    uint64_t address;\n", "    uint64_t address;\n    uint64_t value;\n"),
    (RUN, "#define RVCFI_HANDLER_DEEP       3u", "#define RVCFI_HANDLER_DEEP       4u"),
    (RUN, "#define RVCFI_STOP_LOAD    4u", "#define RVCFI_STOP_LOAD    5u"),
    (RUN, "#define RVCFI_RUN_HARTS      6u", "#define RVCFI_RUN_HARTS      7u"),
    (RUN, "uint64_t limit, uint8_t *output", "uint32_t limit, uint8_t *output"),
    (FFI, "    pub data_length: u64,\n    pub data_address: u64,\n", "    pub data_address: u64,\n    pub data_length: u64,\n"),
    (FFI, "            graph.as_ptr(),\n            graph.len(),\n            &mut verdict,", "            image.as_ptr(),\n            image.len(),\n            &mut verdict,"),
    (CRATE, "&calls.numbers[..calls.count]", "&calls.numbers[..calls.count - 1]"),
    (CRATE, "        (0, numbers, count) =>", "        (0, numbers, count) if count > 3 =>"),
    (CRATE, "        self.plan.harts\n", "        self.plan.version\n"),
    (CRATE, "        0..self.plan.data_end", "        0..self.plan.data_end - 1"),
    (CRATE, "plan.code_address, plan.code_offset", "plan.code_address, plan.data_offset"),
    (REJECTION, "    Rule::Unit,\n    Rule::Target,\n", "    Rule::Target,\n    Rule::Unit,\n"),
    (REJECTION, "(1, 2) => Some(Rejection::Image(BadImage::Byte(first)))", "(1, 2) => Some(Rejection::Image(BadImage::Long(first)))"),
    (REJECTION, "code: first,\n                graph: second,", "code: second,\n                graph: first,"),
    (REJECTION, "(3, 2..=11)", "(3, 2..=10)"),
    (REJECTION, "            (4, 0) => Some(Rejection::NoMemory),\n", ""),
    (REJECTION, "{rule:?} {address:08x}", "{rule:?} {address:08X}"),
]


def edit(path, old, new):
    """Puts a text in the place of one that stands in a file once."""
    text = path.read_text()
    if text.count(old) != 1:
        raise ValueError("%s has %d times %r" % (path, text.count(old), old))
    path.write_text(text.replace(old, new))


def copied(folder):
    """A copy of what the tests read, whose archives are those that are built."""
    for name in COPIED:
        shutil.copytree(REPOSITORY / name, folder / name, ignore=shutil.ignore_patterns("out", "aarch64"))
    (folder / "library" / "archive.py").write_text("")
    edit(folder / "library" / "test.py", ', "-Werror"', "")
    return folder / "library"


def said(command):
    done = subprocess.run(command, stdin=subprocess.DEVNULL, stdout=subprocess.PIPE, stderr=subprocess.STDOUT, encoding="utf-8", errors="replace")
    return done.returncode, done.stdout


def tried(library):
    """Whether the library of a copy passes its tests, and what was said first of what failed."""
    status, told = said([str(library / "build.sh")])
    if status == 0:
        status, told = said([sys.executable, str(library / "test.py"), "--pairs", "60"])
    failed = [line for line in told.splitlines() if line.startswith("FAILED") or "error" in line]
    return status == 0, (failed or [told[-200:]])[0]


def lacking(file):
    """What this machine lacks to try wrong bodies of a file, or None."""
    needs = ["cc", "cargo"] if file.startswith("rust/") else ["cc"]
    absent = [name for name in needs if not shutil.which(name)]
    is_built = (REPOSITORY / "library" / "lib" / "librvcfi_c.a").exists()
    return absent[0] if absent else None if is_built else "library/lib/librvcfi_c.a"


def tellable(numbers):
    """Those of the numbers whose bodies can be tried; it tells the others."""
    lacks = {number: lacking(EDITS[number][0]) for number in numbers}
    for number in filter(lacks.get, numbers):
        print("not run, since there is no %s: %d %s" % (lacks[number], number, EDITS[number][0]))
    return [number for number in numbers if not lacks[number]]


def main():
    numbers = tellable(list(map(int, sys.argv[1:])) or range(len(EDITS)))
    passes = 0
    for number in numbers:
        with tempfile.TemporaryDirectory() as folder:
            library = copied(Path(folder))
            edit(library / EDITS[number][0], *EDITS[number][1:])
            is_passed, why = tried(library)
        passes += is_passed
        print("%d %s: %s" % (number, EDITS[number][0], "NOT REFUSED" if is_passed else "refused, " + why[:120]), flush=True)
    print("%d passed, %d failed" % (len(numbers) - passes, passes))
    return 1 if passes else 0


if __name__ == "__main__":
    sys.exit(main())
