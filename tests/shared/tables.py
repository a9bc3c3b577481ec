"""The tables of crates/ that scripts print: each such script is called as `SCRIPT [--check] [NAME ..]`.

It prints its tables, or those that are named; with --check it tells which of these do not stand in crates/ so, and the status is 1 where
there is one. A table is a whole file, which begins with `//!`, or has parts with an empty line between them: constants, or rows of them.
"""

import argparse
import functools
import re

from tests.shared.paths import CRATES

PER_LINE = 47


def hexadecimal(head, content):
    """A file as a text of digits, in lines."""
    lines = [content[at:at + PER_LINE].hex() for at in range(0, len(content), PER_LINE)]
    return '%s: &[u8] = b"\\\n    %s";\n' % (head, "\\\n    ".join(lines))


def text(head, rows):
    """A text, a row in a line."""
    return '%s: &[u8] = b"\\\n%s";\n' % (head, "\\\n".join("    %s\\n" % row for row in rows))


def lines(head, rows):
    """A text, with a semicolon and no more between its rows."""
    return '%s: &[u8] = b"\\\n%s";\n' % (head, ";\\\n".join("    " + row for row in rows))


def words(head, numbers):
    """A table of words."""
    lines = ["    " + ", ".join("0x%08x" % word for word in numbers[k:k + 8]) + "," for k in range(0, len(numbers), 8)]
    return "%s: [u32; %d] = [\n%s\n];\n" % (head, len(numbers), "\n".join(lines))


def fnv(content):
    """The FNV-1a hash of bytes, with 64 bits."""
    number = 0xCBF29CE484222325
    for byte in content:
        number = (number ^ byte) * 0x100000001B3 % 2**64
    return number


def plain(code):
    """Code without what its layout may choose: lines, blanks between words, marks in numbers, who sees a constant."""
    code = re.sub(r"\\\n\s*", "", code)
    parts = re.split(r'("(?:[^"\\]|\\.)*")', re.sub(r"(?m)^\s*//.*$", "", code))
    parts[::2] = [re.sub(r"pub(\(crate\))?|(?<=[0-9a-fx])_(?=[0-9a-f])|\s", "", part) for part in parts[::2]]
    return "".join(parts).replace(",]", "]").replace(",)", ")")


@functools.lru_cache(None)
def standing(pattern):
    """The code of files of crates/."""
    return "".join(plain(path.read_text()) for path in sorted(CRATES.glob(pattern)))


def stands(pattern, table):
    if table.startswith("//!"):
        return (CRATES / pattern).exists() and (CRATES / pattern).read_text() == table
    return all(plain(part) in standing(pattern) for part in re.split(r"\n\n+", table))


def main(page, tables):
    """`tables` has of each name the file in crates/, or a pattern of several, and what makes its text."""
    words = argparse.ArgumentParser(description=page, formatter_class=argparse.RawDescriptionHelpFormatter)
    words.add_argument("--check", action="store_true", help="tells which tables do not stand in crates/ so")
    words.add_argument("names", metavar="NAME", nargs="*", help=", ".join(tables))
    options = words.parse_args()
    names = options.names or list(tables)
    if set(names) - set(tables):
        words.error("there are %s" % ", ".join(tables))
    if not options.check:
        print("\n".join(tables[name][1]().rstrip("\n") + "\n" for name in names), end="")
        return 0
    wrong = [name for name in names if not stands(tables[name][0], tables[name][1]())]
    print("%d of %d tables stand in crates/ so%s" % (len(names) - len(wrong), len(names), ": not " + ", ".join(wrong) if wrong else ""))
    return 1 if wrong else 0
