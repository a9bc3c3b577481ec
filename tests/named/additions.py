#!/usr/bin/env python3
"""Prints the table "To add something" of docs/ARCHITECTURE.md: `python3 tests/named/additions.py`. named.py asks whether it stands there so.

A row has what may be added, words that name a like thing, the crates whose sources, definitions or proofs have one of them, and what that
search misses.
"""

import re
import sys
from pathlib import Path

sys.dont_write_bytecode = True
sys.path.insert(0, str(Path(__file__).resolve().parents[2]))

from tests.shared.paths import CRATES

MOST = 10  # crates that are named
HEAD = ["| to add | WORD | named in | and |", "|---|---|---|---|"]
ROWS = [
    ("an instruction", ["Mulhsu"], "of a new format `Upper`; where it computes or loads a register, `cfi_reader` `plain.rt`, "
     "`proofs/PlainWord`; rows in `tests/words/table.py`"),
    ("a system call", ["read_call"], "`rv_code` `specs/SystemCall` comes first; [MACHINE](MACHINE.md); `tests/machine/harts.py`, "
     "`tools/simulator/machine.py`; `library/examples/emulator.c`"),
    ("a unit", ["Guarded"], "all files of `tests/named/units.txt`, in their order; a constructor a word in `InPlace`; a proof file for what "
     "its steps do; a source in `tests/units`"),
    ("a version of images", ["EightHarts", "version_2"], "`rv_image` `profile.rt`, `version.rt`; `cfi_unit` `specs/Prologue`, "
     "`proofs/Parts`; `cfi_verify` `prologue.rt`"),
    ("a form of hardening, a version of graphs", ["HartsSplit", "TwoLabels"], "`tests/shared/forms.py`"),
    ("a sort of class", ["Jumps", "is_sort_of", "read_of", "sorts_of"], "where its checks read another word, `cfi_unit` `target_word.rt`; "
     "`cfi_rules` `proofs/Labels`; `cfi_writer` `proofs/Few`"),
    ("a line of a graph without an address", ["calls_in", "is_head"], "`cfi_graph` `specs/Text`, `Reading`, `read.rt`, `write.rt`; "
     "`cfi_rules` `specs/Lines`; where a policy tells it, `Policy` of `cfi_policy`, `Raw` of `cfi_flow`, `Closed` of `cfi_closed`"),
    ("a rule", ["Astray", "ASTRAY"], "`cfi_verify` `all_hold.rt`; `rejection.rs` of the Rust crate; [FORMATS](FORMATS.md)"),
    ("a command", ["Demo", "DEMO"], "its row in `COMMANDS` of `tool_words`; a file of `src` and one of `specs` in `tool_images` or "
     "`tool_objects`; `refusals` where a file that it reads is refused"),
    ("a refusal", ["CodeTooLarge"], "the table of [COMPILING](COMPILING.md), which `tools/explain` reads"),
    ("a relocation", ["R_RISCV_PCREL_HI20", "RelativeHigh"], "`rv_reloc` `code.rt` or `data.rt` with `specs/Word` or `Data`; "
     "`tests/relocations/rows.py`"),
    ("a form of texts", ["LineForm"], "its rules in `specs` (`LineRules`); no loop"),
    ("a first line of a text", ["after_one_of"], "its name at the end of `NAMES` there and of the list in `specs`, its spelling where the "
     "text is written; lines of another form before the others are read ahead (`script_turns.rt`)"),
    ("another source of programs", ["IsGiven"], "an `Input` of `obj_input` or its `Items`; in `cfi_harden` a row in `specs/Given` and a call "
     "as `program_of`; a case in `cfi_single` `proofs/Givings`"),
]


def crates():
    """The words of each crate that is no test, in the order of crates.txt."""
    names = re.findall(r"^(\w+)(?: \w+)?:", (CRATES.parent / "crates.txt").read_text(), re.M)
    for name in (each for each in names if not each.startswith(("test_", "sample_"))):
        files = [path for part in ("src", "specs", "proofs") for kind in ("*.rt", "*.antt") for path in (CRATES / name / part).rglob(kind)]
        yield name, set(re.findall(r"\w+", "\n".join(path.read_text() for path in files)))


def table():
    known = list(crates())
    for what, words, rest in ROWS:
        naming = ["`%s`" % name for name, has in known if has & set(words)]
        shown = ", ".join(naming) if len(naming) <= MOST else "%d crates, %s to %s" % (len(naming), naming[0], naming[-1])
        yield "| %s | %s | %s | %s |" % (what, ", ".join("`%s`" % word for word in words), shown, rest)


def text():
    return "\n".join([*HEAD, *table()])


if __name__ == "__main__":
    print(text())
