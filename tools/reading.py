#!/usr/bin/env python3
"""Lists what a reader of a statement must read: `python3 tools/reading.py IsConfined`.

A statement is one of LISTS, any definition in crates/NAME/specs or the contract of a function in crates/NAME/src, by its name or with its
crate's before it (`cfi_rules.IsListed`). Listed are, file by file, the definitions, Rust types, constants and traits that it names, and
those that these name, and so on, each with its first line and how many lines it has without comments and empty lines. A type with a model
counts with its declaration and its model's value, view and invariant; a variable that shares its name with a definition of its file counts
as that definition. What the kit defines (std, clap, byteorder, indexmap) is named after the list, and is not counted.

`--page` writes the lists of docs/DEFINITIONS.md anew, and keeps the words of each file; `--check` asks that they stand there as it would
write them, that each file has its words, that all names were found, and that no list has more lines than it may.
"""

import argparse
import re
import sys
from pathlib import Path

ROOT = Path(__file__).resolve().parent.parent
CRATES = ROOT / "crates"
PAGE = ROOT / "docs" / "DEFINITIONS.md"
# Each list: its statement, where it stands, and how many lines it may have.
LISTS = [
    ("IsConfined", "cfi_confined/specs/Confined.antt", 800),
    ("IsSafe", "cfi_rules/specs/Along.antt", None),
    ("KeepsMeaningAtMap", "cfi_meaning/specs/Hardened.antt", 2000),
    ("rvcfi", "cfi_tool/src/command.rt", None),
]
MARKS = re.compile(r"(<!-- reading (\w+) -->\n)(.*?)(<!-- end -->)", re.S)
LISTED = re.compile(r" *\d+ (\S+) *(.*)")
NAMES = re.compile(r"[\w◌≡≢≤<+\-*/&|=]+")
USE = re.compile(r"(?:pub |ghost )?use (Rattle[\w.\-]+)\.\{(.*)\};?$")
ALIAS = re.compile(r"(?:ghost )?use (Rattle[\w.\-]+) as ([\w\-]+);?$")
DEFINED = re.compile(r"(?:abbrev |unfoldable |pub )*(?:record |data )?([\w\-]+)(?: .*)?:")
BEGINS = re.compile(r"(  )?(abbrev|unfoldable|pub|record|data)\b")
ITEM = re.compile(r"\s*(?:pub(?:\([\w ]+\))? )?(?:enum|struct|const|static|type|trait) (\w+)")
MODEL = re.compile(r"impl(?:<.*?>)? Model for (\w+)")
FUNCTION = re.compile(r"(?:pub(?:\([\w ]+\))? )?(?:extern \S+ )?fn (\w+)")
RUST_USE = re.compile(r"^(?:pub(?:\([\w ]+\))? )?use ([\w:]+(?:::\{[^}]*\})?(?: as \w+)?);", re.M)
RUST_NAMES = re.compile(r"\w+(?:::\w+)*")


class Item:
    """A definition, a type, a constant, a trait or a contract, without its comments."""

    def __init__(self, first, text=None):
        self.first, self.lines, self.text = first, 0, ""
        self.model, self.open = False, True
        if text is not None:
            self.add(text)

    def add(self, text):
        self.lines += 1
        self.text += text + "\n"


class File:
    """What a file imports, its other names for modules, what it defines, and the contracts in it."""

    def __init__(self):
        self.imports, self.aliases, self.items, self.contracts, self.rust = {}, {}, {}, {}, {}

    def take_use(self, line):
        if used := USE.match(line):
            for name in (each.strip() for each in used.group(2).split(",")):
                known, _, here = name.partition(" as ")
                self.imports[here or known] = used.group(1), known
        elif alias := ALIAS.match(line):
            self.aliases[alias.group(2)] = alias.group(1)
        else:
            return False
        return True


def specs(path):
    """A file of definitions."""
    file, last, record, within = File(), None, False, None
    for number, line in enumerate(path.read_text().split("\n"), 1):
        text = line.strip()
        if file.take_use(line) or not text or text.startswith("--"):
            continue
        if line.startswith("module "):
            within, last = file.items.setdefault("module %d" % number, Item(number, line)), None
            continue
        found = DEFINED.match(text)
        field = record and line.startswith("  pub ")
        if found and BEGINS.match(line) and not field:
            within = within if line.startswith("  ") else None
            last, record = file.items.setdefault(found.group(1), Item(number, line)), bool(re.match(r"(pub )?(record|data)\b", line))
            if within:
                last.text += " module%d" % within.first
        elif last:
            last.add(line)
            if record and (made := re.match(r"  (\w+) : ", line)):
                file.imports.setdefault(made.group(1), (None, found_name(file, last)))
    return file


def found_name(file, item):
    return next(name for name, each in file.items.items() if each is item)


def bare(line):
    """A line of Rust without its comment, and without what stands in quotes."""
    return re.sub(r"//.*", "", re.sub(r"b?'(?:\\.[^']*|[^'\\])'|\"(?:\\.|[^\"\\])*\"", "0", line))


def sources(path):
    """The types, constants, traits and contracts of a source."""
    file, last, depth, contract = File(), None, 0, None
    text = path.read_text()
    for used in RUST_USE.findall(re.sub(r"//.*", "", text)):
        base, _, members = used.partition("::{")
        for each in (members.rstrip("}").split(",") if members else [""]):
            known, _, here = each.strip().partition(" as ")
            whole, _, renamed = ("%s::%s" % (base, known) if members else base).partition(" as ")
            if known or not members:
                file.rust[here or renamed or whole.split("::")[-1]] = whole.removesuffix("::self").split("::")
    for number, line in enumerate(text.split("\n"), 1):
        plain = bare(line)
        if not plain.strip():
            continue
        if file.take_use(line.strip()):
            continue
        if depth == 0 and (found := MODEL.match(plain)):
            last, contract = file.items.setdefault(found.group(1), Item(number)), None
            last.model = last.open = True
        elif depth == 0 and (found := ITEM.match(plain)):
            last, contract = file.items.setdefault(found.group(1), Item(number)), None
        elif depth == 0 and (found := FUNCTION.match(plain)):
            last, contract = file.contracts.setdefault(found.group(1), Item(number)), True
        elif depth == 0 and plain[0] not in " {}()":
            last, contract = None, None
        if contract and (line == "{" or FUNCTION.match(plain) and plain.rstrip().endswith("{")):
            last.lines = last.lines or 1
            last, contract = None, None
        if depth == 1 and last and last.model and (found := re.match(r" *(?:ghost (\w+)|fn|type|const)", plain)):
            last.open = found.group(1) in ("Value", "view", "invariant")
        if last and last.open and not (last.model and plain == "}"):
            last.add(line if "//" not in line else plain)
        depth += sum(map(plain.count, "{[(")) - sum(map(plain.count, ")]}"))
        if depth == 0 and not contract:
            if last:
                last.model, last.open = False, True
            last = None
    return file


def file_of(module):
    """The file of a module, if it is one of the repository's, and the names that it adds to what is asked for."""
    crate, kind, *rest = module.split(".")[1:]
    if kind == "specs" and rest[:1] == ["declared"]:
        names = [name for name in rest[1:] if not name.startswith("The")]
        for split in range(len(names), 0, -1):
            path = CRATES / crate / "src" / ("/".join(names[:split]) + ".rt")
            if path.exists():
                return path, names[split:]
        return CRATES / crate / "src" / "lib.rt", names
    return CRATES / crate / kind / ("/".join(rest) + ".antt"), []


class Reader:
    """The files that were read."""

    def __init__(self):
        self.files, self.kit, self.lost, self.by_alias = {}, {}, set(), set()

    def parts(self, path):
        if path not in self.files:
            known = path.exists() and (sources if path.suffix == ".rt" else specs)
            self.files[path] = known(path) if known else File()
        return self.files[path]

    def rust(self, path, names):
        """Where the item stands that a path of Rust names, seen from a source."""
        source = next(each for each in path.parents if each.name == "src")
        if names[0] == "crate":
            here, names = source / "lib.rt", names[1:]
        elif names[0] in ("self", "super") or not (CRATES / names[0]).is_dir():
            here = path
        else:
            here, names = CRATES / names[0] / "src" / "lib.rt", names[1:]
        for _ in range(20):
            if not names:
                return None
            file = self.parts(here)
            if names[0] in file.items:
                return here, names[0]
            folder = here.parent if here.name == "lib.rt" else here.with_suffix("")
            if len(names) > 1 and (folder / (names[0] + ".rt")).exists():
                here, names = folder / (names[0] + ".rt"), names[1:]
            elif names[0] in file.rust and file.rust[names[0]] != names:
                known = file.rust[names[0]] + names[1:]
                if known[0] == "crate":
                    here, names = next(each for each in here.parents if each.name == "src") / "lib.rt", known[1:]
                elif (folder / (known[0] + ".rt")).exists():
                    names = known
                elif (CRATES / known[0]).is_dir():
                    here, names = CRATES / known[0] / "src" / "lib.rt", known[1:]
                else:
                    return None
            else:
                return None
        return None

    def needed(self, todo):
        """All that names need: of a module and a name, or of a file and an item of it."""
        seen, todo, tried = {}, list(todo), set()
        while todo:
            place, name = todo.pop()
            if (place, name) in tried:
                continue
            tried.add((place, name))
            if isinstance(place, Path):
                path, added = place, []
            else:
                if not (CRATES / place.split(".")[1]).is_dir():
                    self.kit.setdefault(place, set()).add(name)
                    continue
                path, added = file_of(place)
            file = self.parts(path)
            found = False
            for each in [name, *added]:
                if each in file.items:
                    found = True
                    if (path, each) not in seen:
                        seen[path, each] = file.items[each]
                        todo += self.named(path, each, file.items[each].text)
                elif each in file.imports:
                    found = True
                    module, known = file.imports[each]
                    todo.append((module or path, known))
            if not found:
                if path.suffix == ".rt" and (where := self.rust(path, [name])):
                    todo.append(where)
                elif (place, name) not in self.by_alias:
                    self.lost.add((str(place), name))
        return seen

    def named(self, path, name, text):
        """What a text of a file names."""
        file = self.parts(path)
        words = set(NAMES.findall(text)) - {name}
        yield from ((path, "module %s" % word[6:]) for word in words if re.fullmatch(r"module\d+", word))
        yield from ((path, word) for word in words if word in file.items)
        for word in words:
            if word in file.imports:
                module, known = file.imports[word]
                yield module or path, known
        for alias, known in file.aliases.items():
            self.by_alias.update((known, member) for member in re.findall(r"\b%s\.([\w\-]+)" % re.escape(alias), text))
            yield from ((known, member) for member in re.findall(r"\b%s\.([\w\-]+)" % re.escape(alias), text))
        if path.suffix == ".rt":
            for spelled in set(RUST_NAMES.findall(text)):
                names = spelled.split("::")
                if names[0] in file.rust or len(names) > 1:
                    where = self.rust(path, names) or self.rust(path, names[:1])
                    if where and where != (path, name):
                        yield where

    def statement(self, file, name):
        """All that a statement of a file needs, itself among it."""
        path = CRATES / file
        if name in self.parts(path).contracts:
            item = self.parts(path).contracts[name]
            return {(path, name): item, **self.needed(self.named(path, name, item.text))}
        return self.needed([(path, name)])


def counts(items):
    return len(items), sum(item.lines for item in items.values()), len({path for path, _ in items})


def by_file(items):
    """The items of each file, the files in the order of crates.txt."""
    lines = (ROOT / "crates.txt").read_text().split("\n")
    order = {re.match(r"\w*", line).group(): number for number, line in enumerate(lines) if not line.startswith("#")}
    files = {}
    for (path, name), item in items.items():
        files.setdefault(path.relative_to(CRATES), []).append((item.first, name, item.lines))
    return {path: sorted(files[path]) for path in sorted(files, key=lambda path: (order[path.parts[0]], path))}


def show(name, items, kit):
    for path, known in by_file(items).items():
        print("crates/%s" % path)
        for first, each, lines in known:
            print("    %d: %s (%d)" % (first, each, lines))
    for module in sorted(kit):
        print("of the kit, not counted: %s: %s" % (module, ", ".join(sorted(kit[module]))))
    print("%s: %d definitions, types, constants and traits, %d lines in %d files" % (name, *counts(items)))


def lists():
    """Each list: its name, all of it, what it adds to those before it, and how many lines it may have; and the names that were not found."""
    seen, known, lost = {}, [], set()
    for name, file, most in LISTS:
        reader = Reader()
        items = reader.statement(file, name)
        known.append((name, items, {key: item for key, item in items.items() if key not in seen}, most))
        seen.update(items)
        lost |= reader.lost
    return known, sorted(lost)


def page_of(old, known):
    """The page with its lists, and what is wrong with their words."""
    words, wrong, told = {}, [], set()
    for _, name, block, _ in MARKS.findall(old):
        for path, said in (found.groups() for line in block.split("\n") if (found := LISTED.fullmatch(line))):
            words.setdefault(path, said) if said else None
    blocks = {}
    for name, _, added, _ in known:
        lines = ["```"]
        for path, items in by_file(added).items():
            said = "" if path in told else words.get(str(path), "")
            if path not in told and not said:
                wrong.append("docs/DEFINITIONS.md does not say what is in %s" % path)
            told.add(path)
            lines.append(("%4d %-*s %s" % (sum(lines for _, _, lines in items), 36, path, said)).rstrip())
        blocks[name] = "\n".join(lines + ["```", ""])
    rows = ["| statement | lines | of these not in the lists above | definitions | files |", "|---|---|---|---|---|"]
    for name, items, added, _ in known:
        count, lines, files = counts(items)
        rows.append("| `%s` | %s | %s | %s | %s |" % (name, *("{:,}".format(each) for each in (lines, counts(added)[1], count, files))))
    blocks["counts"] = "\n".join(rows + [""])
    missing = set(blocks) - {name for _, name, _, _ in MARKS.findall(old)}
    wrong += ["docs/DEFINITIONS.md has no place for the list %s" % name for name in sorted(missing)]
    return MARKS.sub(lambda found: found.group(1) + blocks.get(found.group(2), "") + found.group(4), old), wrong


def check():
    """Whether the page tells the lists."""
    known, lost = lists()
    old = PAGE.read_text()
    new, wrong = page_of(old, known)
    wrong += ["not found: %s %s" % each for each in lost]
    for now, then in zip(MARKS.findall(old), MARKS.findall(new)):
        gone, come = now[2].split("\n"), then[2].split("\n")
        wrong += ["docs/DEFINITIONS.md, %s: not so: %s" % (now[1], line) for line in gone if line not in come]
        wrong += ["docs/DEFINITIONS.md, %s: missing: %s" % (now[1], line) for line in come if line not in gone]
    if new != old and not wrong:
        wrong.append("docs/DEFINITIONS.md: the lines of a list stand in another order")
    wrong += ["%s has more than %d lines" % (name, most) for name, items, _, most in known if most and counts(items)[1] > most]
    files = sum(len(by_file(added)) for _, _, added, _ in known)
    print("\n".join(wrong + ["%d passed, %d failed" % (max(files + len(known) - len(wrong), 0), len(wrong))]))
    return 1 if wrong else 0


def find(name):
    """The files of definitions in which a name is defined, else those in which a function has it; of a list the list's."""
    if found := [file for each, file, _ in LISTS if each == name]:
        return found
    crate, _, alone = name.rpartition(".")
    files = sorted(CRATES.glob((crate or "*") + "/specs/**/*.antt"))
    calls = sorted(CRATES.glob((crate or "*") + "/src/**/*.rt"))
    defined = [path for path in files if alone in specs(path).items] or [path for path in calls if alone in sources(path).contracts]
    return [str(path.relative_to(CRATES)) for path in defined]


def main():
    words = argparse.ArgumentParser(description=__doc__, formatter_class=argparse.RawDescriptionHelpFormatter)
    words.add_argument("statement", nargs="?", default="IsConfined")
    words.add_argument("--check", action="store_true")
    words.add_argument("--page", action="store_true")
    options = words.parse_args()
    if options.check:
        return check()
    if options.page:
        new, wrong = page_of(PAGE.read_text(), lists()[0])
        PAGE.write_text(new)
        print("\n".join(wrong + ["written"]))
        return 1 if wrong else 0
    found = find(options.statement)
    if len(found) != 1:
        print("%s is defined in: %s" % (options.statement, ", ".join(found) or "no file"))
        return 2
    reader, name = Reader(), options.statement.split(".")[-1]
    show(name, reader.statement(found[0], name), reader.kit)
    return 0


if __name__ == "__main__":
    sys.exit(main())
