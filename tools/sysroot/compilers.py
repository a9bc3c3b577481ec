"""The compilers for RISC-V that are here, with the options of docs/COMPILING.md, for a processor with instructions for products and
quotients and for one without."""

import shutil
import subprocess
from typing import NamedTuple

SECONDS = 60
OPTIONS = ["-mcmodel=medlow", "-fno-pic", "-ffreestanding", "-fno-stack-protector", "-Wall", "-Wextra"]


class Compiler(NamedTuple):
    """A compiler's name, the processor, the command that assembles, what a C file needs besides, and the command that joins
    objects."""
    name: str
    processor: str
    command: list
    options: list
    join: list


class Missing(Exception):
    """What is not there."""


def tool(*names):
    """The first of these commands that is there."""
    for name in names:
        if shutil.which(name):
            return name
    raise Missing(" or ".join(names))


def binutils(name):
    return tool("riscv64-linux-gnu-" + name, "riscv64-unknown-elf-" + name)


def keeps_registers(command):
    """Whether this clang keeps the registers that it is told to keep: clang 14 takes the options and does nothing."""
    done = run(command + ["-S", "-emit-llvm", "-x", "c", "-", "-o", "-"], b"void nothing(void) {}\n")
    return b"+reserve-x30" in done.stdout


def machine(processor):
    """The options that name a processor and its calling convention."""
    return ["-march=" + processor, "-mabi=lp64"]


def gcc(processor="rv64im"):
    command = [tool("riscv64-linux-gnu-gcc", "riscv64-unknown-elf-gcc")] + machine(processor)
    return Compiler("gcc", processor, command, ["-ffixed-t5", "-ffixed-t6"] + OPTIONS, [binutils("ld"), "-r"])


def clang(processor="rv64im"):
    options = ["-ffixed-x30", "-ffixed-x31"] + OPTIONS
    for name in ["clang-%d" % version for version in range(30, 14, -1)] + ["clang"]:
        command = [name, "--target=riscv64"] + machine(processor)
        if shutil.which(name) and keeps_registers(command + options):
            return Compiler("clang", processor, command, options, [tool("ld.lld", name.replace("clang", "ld.lld")), "-r"])
    raise Missing("clang of version 15 or later")


def run(command, given=b"", **options):
    """What a command comes to that is given this input."""
    return subprocess.run(command, input=given, stdout=subprocess.PIPE, stderr=subprocess.PIPE, timeout=SECONDS, **options)


def must(command):
    """The output of a command that must end well."""
    done = run(command)
    if done.returncode:
        raise RuntimeError("%s: status %d\n%s" % (" ".join(command), done.returncode, (done.stdout + done.stderr).decode()))
    return done.stdout
