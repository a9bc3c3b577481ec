"""What each refusal means and what to do about it: the table of docs/COMPILING.md, which is read, so that it stands once."""

import os
import re

PAGE = os.path.join(os.path.dirname(os.path.abspath(__file__)), "..", "..", "docs", "COMPILING.md")
ROW = re.compile(r"^\| (\d+) `([A-Za-z]+)[^|]*\| (.*) \| (.*) \|$")


def rows(path=PAGE):
    """By a refusal's number what it means and what to do."""
    with open(path, encoding="utf-8") as file:
        found = [ROW.match(line) for line in file]
    return {int(row.group(1)): (plain(row.group(3)), plain(row.group(4))) for row in found if row}


def plain(text):
    """A cell without the marks of its page."""
    return re.sub(r"\[([^]]*)\]\([^)]*\)", r"\1", text).replace("`", "").replace("\\|", "|")
