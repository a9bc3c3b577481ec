#!/usr/bin/env python3
"""Prints what hardening adds by what it does: masks, calls, returns, checks, words before units, and the rest, of steps and of code.

    python3 bench/shares.py [--program PATH] [--levels=-O2,..] [--forms=plain,lean]

README.md beside this file says what is measured and what it needs.
"""

import os
import sys
import tempfile
from collections import Counter
from pathlib import Path

sys.dont_write_bytecode = True
sys.path.insert(0, str(Path(__file__).resolve().parents[1]))

from bench import larger
from tests.shared import programs
from tests.shared.command import Words
from tests.shared.forms import is_lean
from tests.shared.programs import LEVELS, PROGRAMS, Hardened, Linked
from tools.explain import units
from tools.explain.texts import LEAN_ONE, ONE, image_code

PARTS = "masks", "calls", "returns", "checks", "before units", "rest"
IDLE, CODE = 0x00000013, 0x40000000
RETURN = 4  # words that a return has more than the program's own


def part_of(unit, after, word):
    """What a unit's added words are of, and which of its words these are."""
    kind = unit.kind
    if kind == "store":
        return "masks", range(unit.mask)
    if kind in ("call", "enter"):
        return "calls", range(unit.size - (kind == "call"))
    if kind == "return":
        return "returns", range(RETURN)
    if kind.startswith("computed"):
        return "checks", range(unit.size - 1)
    if kind == "gate" or kind == "jump" and after in ("gate", "enter") or word == IDLE and after in ("gate", "jump"):
        return "before units", range(unit.size)
    if kind in ("branch", "guarded call"):
        return "rest", range(unit.size - 1)
    return "rest", range(unit.size if kind in ("opening", "closing", "stop") or kind.startswith("handler") else 0)


def added_words(image, form):
    """The addresses of what hardening added, by what they are of."""
    words = image_code(image)
    found = units.split(words, LEAN_ONE if is_lean(form) else ONE)
    parts = {}
    for unit, after in zip(found, [*(unit.kind for unit in found[1:]), ""]):
        part, at = part_of(unit, after, words[(unit.address - CODE) // 4])
        parts.update((unit.address + 4 * k, part) for k in at)
    return parts


def added(made, form, given):
    """How many steps and how many bytes of code are of each part."""
    parts = added_words(made.image, form)
    run = Counter(parts.get(at) for at in programs.addresses_run(programs.for_qemu(made.image), given))
    size = Counter(parts.values())
    return [run[part] for part in PARTS], [4 * size[part] for part in PARTS]


def checked(made):
    if made.told[0] or made.verified()[0]:
        sys.exit(made.told[1].decode())
    return made


def of_builds(tool, levels, forms, folder):
    """By processor and form what each hundred steps and bytes of the builds become, in the mean."""
    rows = {}
    for compiler in programs.compilers_here("not measured, since there is no %s: %s", programs.PROCESSORS):
        for level in levels:
            for program in PROGRAMS:
                plain = programs.linked(programs.joined(compiler, level, program, folder))
                first = programs.counted(plain, program.input)[1], programs.code_size(plain)
                for form in forms:
                    made = checked(Hardened(tool, plain.replace(".elf", "_joined.o"), form))
                    of_build = [[100 * each / of for each in more] for more, of in zip(added(made, form, program.input), first)]
                    rows.setdefault((compiler.processor, form), []).append(of_build)
    return {key: [[sum(each) / len(each) for each in zip(*column)] for column in zip(*builds)] for key, builds in rows.items()}


def of_larger(tool, forms, folder):
    """The same of the larger program, beside the steps and the bytes that are not added."""
    objects, _ = larger.compiled(folder, larger.Grammar(1, 160).sources())
    found = {}
    for form in forms:
        made = checked(Linked(tool, objects, os.path.join(folder, form), form, "none"))
        both = added(made, form, larger.INPUT)
        steps = len(programs.addresses_run(programs.for_qemu(made.image), larger.INPUT)) - sum(both[0])
        own = steps, made.code_size() - sum(both[1])
        found["larger", form] = [[100 * each / of for each in more] for more, of in zip(both, own)]
    return found


def main():
    words = Words(__doc__)
    words.add_argument("--levels", default=",".join(LEVELS), help="with =, as --levels=-O2,-Os")
    words.add_argument("--forms", default="plain,lean", help="of one hart, as --forms=plain,split")
    options = words.parse_args()
    tool, forms = options.program, options.forms.split(",")
    with tempfile.TemporaryDirectory() as folder:
        found = {**of_builds(tool, options.levels.split(","), forms, folder), **of_larger(tool, forms, folder)}
    print("| added to each hundred | %s |" % " | ".join(PARTS))
    print("|---" * (1 + len(PARTS)) + "|")
    for of in dict.fromkeys(of for of, _ in found):
        for k, what in enumerate(("steps", "bytes")):
            cells = zip(*(["%.1f" % each for each in found[of, form][k]] for form in forms))
            print("| %s, %s | %s |" % (of, what, " | ".join(map("/".join, cells))))


if __name__ == "__main__":
    main()
