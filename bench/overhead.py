#!/usr/bin/env python3
"""Prints what hardening costs the programs of tests/real: steps and bytes of code, plain and hardened, and their ratios.

    python3 bench/overhead.py [--program PATH] [--levels=-O2,-Os,..] [--forms=plain,split,..]

README.md beside this file says what is measured and what it needs.
"""

import sys
import tempfile
from pathlib import Path

sys.dont_write_bytecode = True
sys.path.insert(0, str(Path(__file__).resolve().parents[1]))

from tests.shared import programs
from tests.shared.command import Words
from tests.shared.programs import LEVELS, PROGRAMS, Hardened

ROW = "%-12s %-6s %-7s %-6s %-12s %8s %8s %6s   %6s %8s %6s"


def hardened(tool, compiler, level, program, plain, form):
    """The steps and the bytes of code of a program that is hardened in a form."""
    words = program.name, compiler.name, compiler.processor, level, form
    made = Hardened(tool, plain.replace(".elf", "_joined.o"), form)
    if made.told[0] or made.verified()[0]:
        sys.exit("%s %s %s %s %s: %s" % (*words, made.told[1].decode()))
    status, _, report = made.run(program.input)
    if status:
        sys.exit("%s %s %s %s %s: the run ended with status %d" % (*words, status))
    return int(report["steps"][0]), made.code_size()


def measured(tool, compiler, level, program, forms, folder):
    """The steps and the bytes of code of a program, plain, and of each form."""
    plain = programs.linked(programs.joined(compiler, level, program, folder))
    steps = programs.counted(plain, program.input)[1]
    return (steps, programs.code_size(plain)), [hardened(tool, compiler, level, program, plain, form) for form in forms]


def mean(ratios):
    product = 1.0
    for ratio in ratios:
        product *= ratio
    return product ** (1 / len(ratios))


def print_level(tool, compiler, level, forms, folder):
    """Prints a row a program and form and the means, and answers the ratios by form."""
    ratios = {form: [] for form in forms}
    for program in PROGRAMS:
        plain, rows = measured(tool, compiler, level, program, forms, folder)
        for form, row in zip(forms, rows):
            steps, size = row[0] / plain[0], row[1] / plain[1]
            ratios[form].append((steps, size))
            print(ROW % (program.name, compiler.name, compiler.processor, level, form, plain[0], row[0], "%.2f" % steps, plain[1], row[1],
                         "%.2f" % size))
    for form, pairs in ratios.items():
        means = ["%.2f" % mean(each) for each in zip(*pairs)]
        print(ROW % ("mean", compiler.name, compiler.processor, level, form, "", "", means[0], "", "", means[1]), flush=True)
    return ratios


def main():
    words = Words(__doc__)
    words.add_argument("--levels", default=",".join(LEVELS), help="with =, as --levels=-O2,-Os")
    words.add_argument("--forms", default="plain", help="as --forms=plain,harts-split")
    options = words.parse_args()
    rows = {}
    print(ROW % ("program", "by", "for", "level", "form", "steps", "hardened", "times", "bytes", "hardened", "times"))
    with tempfile.TemporaryDirectory() as folder:
        for compiler in programs.compilers_here("not measured, since there is no %s: %s", programs.PROCESSORS):
            for level in options.levels.split(","):
                made = print_level(options.program, compiler, level, options.forms.split(","), folder)
                for form, ratios in made.items():
                    rows.setdefault((compiler.processor, form), []).extend(ratios)
    for words, pairs in rows.items():
        for what, ratios in zip(("steps", "bytes"), zip(*pairs)):
            print("%s, %s, %s: %.2f to %.2f times, in the mean %.2f" % (*words, what, min(ratios), max(ratios), mean(ratios)))


if __name__ == "__main__":
    main()
