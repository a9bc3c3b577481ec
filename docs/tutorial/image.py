#!/usr/bin/env python3
"""Makes an image of the .text and .data of a linked file: python3 image.py PROGRAM.elf PROGRAM.img"""
import struct
import subprocess
import sys
import tempfile
from pathlib import Path


def section(program, name):
    with tempfile.NamedTemporaryFile() as out:
        command = ["riscv64-linux-gnu-objcopy", "-O", "binary", "-j", name, program, out.name]
        subprocess.run(command, check=True)
        return Path(out.name).read_bytes()


def segment(flags, offset, address, in_file, in_memory):
    return struct.pack("<IIQQQQQQ", 1, flags, offset, address, address, in_file, in_memory, 0x1000)


def image(code, data):
    data_at = 0x1000 + (len(code) + 0xFFF) // 0x1000 * 0x1000
    ident = b"\x7fELF\x02\x01\x01" + bytes(9)
    header = ident + struct.pack("<HHIQQQIHHHHHH", 2, 243, 1, 0x4000000C, 64, 0, 0, 64, 56, 3, 0, 0, 0)
    header += segment(6, data_at, 0x10000, len(data), 0xFFF1000)
    header += segment(5, 0x1000, 0x40000000, len(code), 0x100000)
    header += segment(6, 0, 0x60000000, 0, 0x10000)
    return (header.ljust(0x1000, b"\0") + code).ljust(data_at, b"\0") + data


program, out = sys.argv[1:]
Path(out).write_bytes(image(section(program, ".text"), section(program, ".data")))
