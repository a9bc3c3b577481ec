"""Which word of a command line of rvcfi is wrong or missing, by the rules of docs/COMMANDS.md."""

import difflib
import os
import re

COMMANDS = os.path.join(os.path.dirname(os.path.abspath(__file__)), "..", "docs", "COMMANDS.md")
HELP, VERSION = ("-h", "--help"), ("-V", "--version")
WRITTEN = ["IMAGE", "GRAPH", "MAP"]
WRITERS = ["rewrite", "harden", "link"]
RIGHT = "The words are right:"
NUMBERS, MOST = ["STEPS", "NUMBER"], 1_000_000_000


def page():
    with open(COMMANDS, encoding="utf-8") as file:
        return file.read()


def commands():
    """The names of each command's words, from the page's first lines."""
    lines = [line.split() for line in page().split("\n") if line.startswith("    rvcfi ")]
    return {words[1]: words[2:] for words in lines}


def forms():
    """The words that may be FORM, from the page's list of them."""
    return re.findall("^- `(.*?)`: ", page().partition("\n## `harden`\n")[2].partition("\n## ")[0], re.M)


def main(words):
    """Prints what is told, without what a terminal would act on. The status is rvcfi's: 2 where a word is wrong, else 0."""
    text = told(words)
    print("".join(letter if letter.isprintable() else "?" for letter in text))
    return 0 if text.startswith(RIGHT) else 2


def told(words):
    """A sentence on the first word that is wrong, or on there being none."""
    known = commands()
    if not words:
        return "No command is named; there are %s." % ", ".join(known)
    faults = [unread(words), alone(words, known), unknown(words[0], known)]
    fault = next(filter(None, faults), None)
    if fault or words[-1] in HELP + VERSION:
        return fault or RIGHT + " they ask for help or the version."
    name, names = words[0], known[words[0]]
    given, fault = operands(words[1:])
    fault = fault or miscounted(name, names, given) or misspelled(name, dict(zip(names, given)))
    return fault or RIGHT + " `rvcfi %s` takes them." % name


def unread(words):
    """A word that is not text."""
    number = next((number for number, word in enumerate(words, 1) if any(0xD800 <= ord(letter) < 0xE000 for letter in word)), None)
    return number and "Word %d is not text: its bytes are not UTF-8." % number


def alone(words, known):
    """Help or the version that is asked for among other words."""
    before = words[:words.index("--")] if "--" in words else words
    asked = next((word for word in before if word in HELP + VERSION), None)
    if not asked or len(words) == 1 or (asked in HELP and len(words) == 2 and words[0] in known and words[1] == asked):
        return None
    return "`%s` is answered only where nothing else is asked for; a file of that name stands behind `--`." % asked


def unknown(word, known):
    """A first word that is no command."""
    if word in known or word in HELP + VERSION:
        return None
    if word.startswith("-"):
        return "The first word is a command's name, and `%s` is none: `--` stands behind it." % word
    near = difflib.get_close_matches(word, known, 1)
    return "There is no command `%s`; %s" % (word, "`%s` is meant?" % near[0] if near else "there are %s." % ", ".join(known))


def operands(words):
    """The words of a command, without the `--` before which none begins with `-`, and the one that does."""
    at = words.index("--") if "--" in words else len(words)
    wrong = next((word for word in words[:at] if word.startswith("-") and word != "-"), None)
    return words[:at] + words[at + 1:], wrong and "`%s` begins with `-`: such a word stands behind `--`, as in `rvcfi COMMAND -- %s`." % (wrong, wrong)


def miscounted(name, names, given):
    """What is missing, or too much."""
    several = names[-1] == ".."
    wanted = names[:-1] if several else names
    takes = "`%s` takes %s" % (name, " ".join(names))
    if len(given) < len(wanted):
        return "%s is missing: %s, and %s." % (" ".join(wanted[len(given):]), takes, "%d words are given" % len(given) if len(given) - 1 else "1 word is given")
    if len(given) > len(wanted) and not several:
        return "`%s` is too much: %s, which are %d words." % (given[len(wanted)], takes, len(wanted))
    return None


def misspelled(name, values):
    """A word that is there and is not what it should be."""
    form, written = values.get("FORM"), [values[each] for each in WRITTEN if each in values]
    if form is not None and form not in forms():
        return "`%s` is no FORM: there are %s." % (form, ", ".join(forms()))
    if name in WRITERS and len(set(written)) < len(written):
        return "Two of IMAGE, GRAPH and MAP are equal: %s. Each is a file of its own." % " ".join("`%s`" % each for each in written)
    for each in NUMBERS:
        number = values.get(each, "0")
        if not re.fullmatch("[0-9]{1,10}", number):
            return "`%s` is no %s: it has 1 to 10 digits, and nothing else." % (number, each)
        if int(number) > MOST:
            return "%s is at most %d, and `%s` is above it." % (each, MOST, number)
    return None
