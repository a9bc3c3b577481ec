#!/usr/bin/env python3
"""Makes a file for qemu-riscv64 of an image: python3 for_qemu.py PROGRAM.img PROGRAM.qemu

An image says that its code has 100000h bytes in memory, more than the file has, so that what lies behind it is zero. qemu's
user mode fills such a rest by writing to it, which code forbids. Here the size in memory is that of the file: one field of
the second program header. The file that is made is no image for `rvcfi verify`: verify the image itself.

qemu's user mode confines nothing: it is for trying programs of one's own. It also answers an EBREAK between two certain
words, all three of which are units, as a request to itself (semihosting): to run a command of the host, or to write
anywhere. An image with these three words one after another is refused here, with status 1.
"""
import os
import struct
import sys
from pathlib import Path

CODE_AT, CODE_IN_FILE, CODE_IN_MEMORY = 0x1000, slice(152, 160), slice(160, 168)
CODE = 0x40000000
REQUEST = struct.pack("<III", 0x01F01013, 0x00100073, 0x40705013)  # slli x0,x0,31; ebreak; srai x0,x0,7
REFUSED = """%s: not made, since %08x has the words slli x0,x0,31; ebreak; srai x0,x0,7.
In the machine this EBREAK ends the program. qemu takes it as a request to itself (semihosting): it would do what registers
ask for, run a command of the host or write onto the shadow stack, and the program would go on."""


def requests(code):
    """The addresses of the words that qemu takes as a request."""
    return [CODE + at for at in range(0, len(code), 4) if code.startswith(REQUEST, at)]


def main(image, out):
    content = bytearray(Path(image).read_bytes())
    length, = struct.unpack("<Q", content[CODE_IN_FILE])
    found = requests(content[CODE_AT:CODE_AT + length])
    if found:
        sys.exit(REFUSED % (out, found[0]))
    content[CODE_IN_MEMORY] = content[CODE_IN_FILE]
    Path(out).write_bytes(content)
    os.chmod(out, 0o755)


if __name__ == "__main__":
    if len(sys.argv) != 3:
        sys.exit(__doc__)
    main(*sys.argv[1:])
