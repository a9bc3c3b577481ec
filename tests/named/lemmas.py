"""Which lemmas of proofs stand twice: statements that are the same but for names of variables, over the same words."""

import collections
import re

from tests.shared.paths import CRATES

LEMMA = re.compile(r"^(?:pub )?([^\s:()]+) : (.*(?:\n[ \t]+.*)*)", re.M)
USE = re.compile(r"^use ([\w.]+)\.\{([^}]*)\}", re.M)
APART = {  # may stand twice: between crates that export none of their proofs
    "tool_words/proofs/Leaf.antt cases_option", "elf_writer/proofs/Stands.antt past_content", "obj_join/proofs/Sorting.antt tie",
    "obj_join/proofs/Listing.antt listed_next", "obj_items/proofs/NoFault.antt past_sections",
}
BOUND = re.compile(r"[({]([^(){}:]+) : ")
WORD = re.compile(r"(?<![\w.'\-])[^\W\d][\w'\-]*")


def renamed(statement):
    """A statement with its variables by number."""
    names = dict.fromkeys(name for group in BOUND.findall(statement) for name in WORD.findall(group))
    numbers = {name: "v%d" % number for number, name in enumerate(names)}
    return WORD.sub(lambda word: numbers.get(word[0], word[0]), statement)


def homes(path, text):
    """Where the words of a file come from: those that it defines from itself."""
    found = {name: path for name in re.findall(r"^(?:(?:pub|abbrev|unfoldable|record|data) )*([^\s:()]+) (?:\(.*\) )?:", text, re.M)}
    for module, names in USE.findall(text):
        found.update((name.strip(), module) for name in names.split(","))
    return found


def lemmas(path):
    """The lemmas of a file, by statement and by where its words come from."""
    text = path.read_text()
    home = homes(path, text)
    for name, statement in LEMMA.findall(text):
        said = renamed(" ".join(statement.split()))
        if "→" in said and "(" in said:
            yield name, (said, *((word, home[word]) for word in sorted(set(WORD.findall(said))) if word in home and "std" not in str(home[word])))


def twice():
    """What stands twice, a line each, and how many lemmas stand once."""
    places = collections.defaultdict(list)
    for path in sorted(CRATES.glob("*/proofs/**/*.antt")):
        if "out" not in path.relative_to(CRATES).parts:
            for name, statement in lemmas(path):
                place = "%s %s" % (path.relative_to(CRATES), name)
                places[statement] += [place] * (place not in APART)
    wrong = ["stands twice: " + ", ".join(each) for each in places.values() if len(each) > 1]
    return wrong, len(places) - len(wrong)
