#!/usr/bin/env python3
"""Hardens in each form that the model has: `python3 tests/model/hardening.py FORM ENTRY POLICY IMAGE GRAPH MAP OBJECT ..`.

The words and what they mean are those of `rvcfi link`. It refuses nothing but too much code.
"""

import argparse
import sys
from pathlib import Path

sys.dont_write_bytecode = True
sys.path.insert(0, str(Path(__file__).resolve().parents[2]))

from tests.model.hardener import Hardening, Source
from tests.model.joiner import Joined
from tests.model.lean_hardener import LeanHardening
from tests.shared.forms import FORMS, is_lean


def hardened_in(form, source, entry, policy=""):
    """What an object, or several as one, becomes in a form."""
    return (LeanHardening if is_lean(form) else Hardening)(source, entry, form, policy)


def main():
    words = argparse.ArgumentParser(description=__doc__, formatter_class=argparse.RawDescriptionHelpFormatter)
    words.add_argument("form", metavar="FORM", choices=FORMS)
    for name in ("entry", "policy", "image", "graph", "map"):
        words.add_argument(name, metavar=name.upper())
    words.add_argument("objects", metavar="OBJECT", nargs="+")
    options = words.parse_args()
    joined = Joined([Source(Path(path).read_bytes()) for path in options.objects])
    policy = "" if options.policy == "none" else Path(options.policy).read_text()
    made = hardened_in(options.form, joined, options.entry, policy)
    if made.told().startswith(b"rewritten "):
        for path, content in ((options.image, made.image), (options.graph, made.graph), (options.map, made.map)):
            Path(path).write_bytes(content)
    print(made.told().decode(), end="")
    return 0 if made.told().startswith(b"rewritten ") else 1


if __name__ == "__main__":
    sys.exit(main())
