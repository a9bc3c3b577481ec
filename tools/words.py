#!/usr/bin/env python3
"""Whether the pages are short, and their links lead somewhere: `python3 tools/words.py`.

Words are counted as `wc -w` counts them. A link of a page to a file, or to a heading of one, is asked for the file and for the heading; links
to other sites are not.
"""

import re
import sys
import unicodedata
from pathlib import Path

ROOT = Path(__file__).resolve().parent.parent
# How many words pages may have, by themselves or together.
MOST = [
    (["README.md"], 1300),
    (["docs/*.md", "bench/README.md"], 33000),
    (["bench/README.md"], 3000),
    (["docs/DECISIONS.md"], 5000),
    (["docs/PROVING.md"], 2000),
    (["docs/TESTED.md"], 2200),
]
LINKED = ["README.md", "docs/*.md", "bench/README.md", "tests/*/README.md", "library/*.md"]
LINK = re.compile(r"!?\[[^\]]*\]\(<?([^)\s>]+)>?(?:\s+\"[^\"]*\")?\)|^\[[^\]]+\]:\s*<?(\S+?)>?\s*$", re.M)
CODE = re.compile(r"^```.*?^```[^\n]*$|^~~~.*?^~~~[^\n]*$", re.M | re.S)


def pages(patterns):
    return sorted({path for pattern in patterns for path in ROOT.glob(pattern)})


def words(paths):
    return sum(len(path.read_bytes().split()) for path in paths)


def anchor(heading):
    """The fragment of a heading, as forges make it."""
    text = re.sub(r"!?\[([^\]]*)\]\([^)]*\)", r"\1", heading).strip().lower()
    kept = [each for each in text if each in " -_" or unicodedata.category(each)[0] in "LN"]
    return "".join(kept).replace(" ", "-")


def anchors(path):
    """The fragments of a page."""
    found = {}
    for line in CODE.sub("", path.read_text()).split("\n"):
        if heading := re.match(r" {0,3}#{1,6} +(.*?)(?: +#+)? *$", line):
            name = anchor(heading.group(1))
            found[name] = found.get(name, -1) + 1
            found["%s-%d" % (name, found[name])] = 0
    return set(found) | set(re.findall(r"<a (?:id|name)=\"([^\"]+)\"", path.read_text()))


def wrong_link(page, target):
    """Why a link of a page leads nowhere, if it does."""
    name, _, fragment = target.partition("#")
    path = (page.parent / name).resolve() if name else page
    if not path.exists():
        return "no such file"
    if not path.is_relative_to(ROOT):
        return "outside of the repository"
    if fragment and path.suffix == ".md" and fragment not in anchors(path):
        return "no such heading"
    return None


def main():
    wrong, passed = [], 0
    for patterns, most in MOST:
        count = words(pages(patterns))
        if count > most:
            wrong.append("%s: %d words, and may have %d" % (" and ".join(patterns), count, most))
        else:
            passed += 1
    for page in pages(LINKED):
        plain = re.sub(r"`[^`\n]*`", lambda code: "" if "](" in code.group() else code.group(), CODE.sub("", page.read_text()))
        for target in (one or other for one, other in LINK.findall(plain)):
            if re.match(r"[a-z][a-z0-9+.\-]*:", target):
                continue
            why = wrong_link(page, target)
            if why:
                wrong.append("%s: %s: %s" % (page.relative_to(ROOT), target, why))
            else:
                passed += 1
    print("\n".join(wrong + ["%d passed, %d failed" % (passed, len(wrong))]))
    return 1 if wrong else 0


if __name__ == "__main__":
    sys.exit(main())
