#!/usr/bin/env python3
"""Tells which files name what few files should name: `python3 tests/named/named.py`.

Each list beside this script has the files that name one thing. A file that names it and is not listed fails, and so does one that is
listed and does not name it. `version_1.txt` has what goes by cases on versions of images: contracts, definitions and proofs speak of a
variable profile, or of that of an image or of a form. `units.txt` has what goes by cases on nearly all units, and so what a new unit
comes to, beside files of its own.

It also asks that the table of docs/COMPILING.md has just the numbers and names that the definitions of refusals have; that in
docs/ARCHITECTURE.md the table of additions is what additions.py prints, and groups and crates are those of crates.txt, each crate on
earlier ones; that no lemma stands twice; and that scripts import along LAYERS, each folder from earlier ones and by whole names, so that
there is no ring.
"""

import ast
import re
import sys
from pathlib import Path

sys.dont_write_bytecode = True
sys.path.insert(0, str(Path(__file__).resolve().parents[2]))

from tests.named import additions, lemmas
from tests.shared.paths import CRATES, ROOT

HERE = Path(__file__).resolve().parent
PAGE = ROOT / "docs" / "ARCHITECTURE.md"
LAYERS = ["tools|docs", "tests/shared", "tests/model", "tests/.*", "bench", "library"]  # one beside another imports nothing of it
PATH = "sys.path.insert(0, str(Path(__file__).resolve().parents[%d]))"  # the one way to what stands elsewhere
VARIANT = re.compile(r"\b(?:V\.|Unit::)(\w+)")
NEARLY_ALL = 10
# The definitions of refusals with numbers of their own, and those of images, which have one number.
NUMBERED = "refusals/specs/Refusals.antt", "elf_object/specs/FaultText.antt", "obj_check/specs/FaultText.antt"
OF_IMAGES = "elf_image/specs/RefusalText.antt"
NUMBER = re.compile(r"^\w+_number \(?(\w+).* = (\d+)$", re.M)
TEXT = re.compile(r"^\w+_text \(?(\w+).* = codes \"(\w+)", re.M)
ROW = re.compile(r"^\| (\d+) (`[^|]*) \|", re.M)


def names_version_1(text):
    """Whether a text says `version_1`."""
    return re.search(r"\bversion_1\b", text) is not None


def names_units(text):
    """Whether a text names nearly all variants of `Unit`."""
    return len(set(VARIANT.findall(text))) >= NEARLY_ALL


LISTS = {"version_1.txt": names_version_1, "units.txt": names_units}


def listed(name):
    """The files of a list, each a line; '#' begins a comment."""
    lines = (line.split("#")[0].strip() for line in (HERE / name).read_text().splitlines())
    return {line for line in lines if line}


def naming(names):
    """The sources, definitions and proofs that name a thing."""
    files = (file for kind in ("*.rt", "*.antt") for file in CRATES.rglob(kind))
    inside = (file for file in files if "out" not in file.relative_to(CRATES).parts)
    return {str(file.relative_to(CRATES)) for file in inside if names(file.read_text())}


def faults(name, names):
    """What is wrong with a list, and how many of its files are right."""
    named, allowed = naming(names), listed(name)
    wrong = [f"{file}: should be in {name}" for file in sorted(named - allowed)]
    wrong += [f"{file}: should not be in {name}" for file in sorted(allowed - named)]
    return wrong, len(named & allowed)


def defined_refusals():
    """The numbers of refusals with their names, by the definitions."""
    found = set()
    for file in NUMBERED:
        text = (CRATES / file).read_text()
        numbers, names = dict(NUMBER.findall(text)), dict(TEXT.findall(text))
        found |= {(number, names[variant]) for variant, number in numbers.items() if variant in names}
        if "Image" in numbers:
            found |= {(numbers["Image"], name) for _, name in TEXT.findall((CRATES / OF_IMAGES).read_text())}
    return found


def refusals():
    """What is wrong with the table of refusals, and how many of its names are right."""
    rows = ROW.findall((ROOT / "docs" / "COMPILING.md").read_text())
    told = {(number, name) for number, names in rows for name in re.findall(r"`(\w+)", names)}
    defined = defined_refusals()
    wrong = [f"docs/COMPILING.md: has no refusal {number} {name}" for number, name in sorted(defined - told)]
    wrong += [f"docs/COMPILING.md: there is no refusal {number} {name}" for number, name in sorted(told - defined)]
    return wrong, len(told & defined)


def architecture():
    """What is wrong with the page of the architecture, and how many of its crates stand right."""
    text = PAGE.read_text()
    wrong = [] if additions.text() + "\n" in text else ["docs/ARCHITECTURE.md: python3 tests/named/additions.py prints another table"]
    groups = re.findall(r"^# ([^:\n.]*)(?::.*)?\n((?:\w.*\n)+)", (ROOT / "crates.txt").read_text(), re.M)
    lines = [line for _, lines in groups for line in lines.splitlines()]
    before = set()
    for name, libraries in ((re.split("[ :]", line)[0], line.partition(":")[2].split()) for line in lines):
        wrong += ["crates.txt: %s stands before %s" % (name, each) for each in libraries if each not in before and (CRATES / each).exists()]
        before.add(name)
    parts = [(title, re.findall(r"`(\w+)`", " ".join(re.findall(r"^- (.*?):", part, re.M))))
             for title, part in re.findall(r"^### (.*)\n((?:(?!#).*\n)*)", text, re.M)]
    told = [(title, names) for title, names in parts if title != "Tests"]
    wanted = [(title, [re.split("[ :]", line)[0] for line in lines.splitlines()]) for title, lines in groups if title != "Tests"]
    wrong += ["docs/ARCHITECTURE.md: %s has %s, and crates.txt %s" % (*one, other) for one, other in zip(told, wanted) if one != other]
    return wrong, len(before)


def layer(folder):
    return next(k for k, pattern in enumerate(LAYERS) if re.fullmatch(pattern, folder))


def folder_of(path):
    """The folder of a script that counts: of tests the second one too."""
    parts = path.relative_to(ROOT).parts
    return "/".join(parts[:2]) if parts[0] == "tests" else parts[0]


def imported(path):
    """The files of the repository that a script imports, and by which name."""
    for node in ast.walk(ast.parse(path.read_text())):
        if isinstance(node, ast.Import):
            names = [(each.name, each.name) for each in node.names]
        elif isinstance(node, ast.ImportFrom) and not node.level:
            names = [(node.module, node.module), *(("%s.%s" % (node.module, each.name), node.module) for each in node.names)]
        else:
            continue
        for name, said in names:
            for base in (ROOT, path.parent):
                file = base / (name.replace(".", "/") + ".py")
                if file.exists():
                    yield file, said, base == ROOT


def imports():
    """What is wrong with the imports of scripts, and how many are right."""
    wrong, right = [], 0
    for path in sorted(path for top in ("tools", "docs", "tests", "bench", "library") for path in (ROOT / top).rglob("*.py")):
        own, name = folder_of(path), str(path.relative_to(ROOT))
        lines = re.findall(r"^ *(sys\.path.*)$", path.read_text(), re.M)
        wrong += ["%s: %s" % (name, line) for line in lines if line != PATH % (len(path.relative_to(ROOT).parts) - 1) or own in ("tools", "docs")]
        for file, said, is_whole in imported(path):
            other = folder_of(file)
            if not (is_whole or own in ("tools", "docs")) or other != own and layer(other) >= layer(own):
                wrong.append("%s: imports %s" % (name, said))
            else:
                right += 1
    return wrong, right


def main():
    told = [faults(name, names) for name, names in LISTS.items()] + [refusals(), architecture(), lemmas.twice(), imports()]
    wrong = [line for lines, _ in told for line in lines]
    print("\n".join(wrong + [f"{sum(right for _, right in told)} passed, {len(wrong)} failed"]))
    return 1 if wrong else 0


if __name__ == "__main__":
    sys.exit(main())
