"""What qemu's user mode does beyond the machine: images that are accepted, and do under qemu what no run in the machine does.

Two ask qemu itself by an EBREAK between two words (semihosting), to run a command of the host and to write onto the shadow
stack: in the machine the EBREAK ends them, and docs/tutorial/for_qemu.py makes no file of them. The third has the kernel
write onto the shadow stack by `read`; no script can see that.
"""

import os

from tests.real.pitfalls import MACHINE
from tests.shared import programs
from tests.shared.programs import Hardened
from tools.sysroot import compilers

ASKS = ["command", "shadow"]
LEFT = 42


def hardened(tool, name, folder):
    path = os.path.join(folder, name + "_joined.o")
    command = [compilers.tool("riscv64-linux-gnu-gcc", "riscv64-unknown-elf-gcc")] + MACHINE
    compilers.must(command + ["-c", programs.source(os.path.join("cases", name + ".s")), "-o", path])
    return Hardened(tool, path)


def of_requests(tool, folder):
    """Each request to qemu: what the image is, how its run ends, and what the script for qemu says of it."""
    for name in ASKS:
        made = hardened(tool, name, folder)
        status, _, report = made.run(b"")
        yield name + ", verify", made.verified(), (0, b"accepted\n")
        yield name + ", run", (status, report["stop"][0]), (11, "break")
        done = compilers.run(programs.QEMU_SCRIPT + [made.image, made.image + ".qemu"])
        said = b"not made" in done.stderr and b"semihosting" in done.stderr
        yield name + ", for qemu", (done.returncode, said, os.path.exists(made.image + ".qemu")), (1, True, False)


def of_kernel(tool, folder):
    """The system call that writes onto the shadow stack: refused in the machine, done under qemu."""
    made = hardened(tool, "kernel", folder)
    given = made.gate("left").to_bytes(8, "little") * 2
    status, _, report = made.run(given)
    yield "kernel, verify", made.verified(), (0, b"accepted\n")
    yield "kernel, run", (status, report["stop"]), (0, ["exit", "14"])
    yield "kernel under qemu", programs.under_qemu(programs.for_qemu(made.image), given), (b"", LEFT)


def tried(tool, folder):
    """The failures, and how much was asked."""
    rows = list(of_requests(tool, folder)) + list(of_kernel(tool, folder))
    return ["FAILED beyond the machine, %s: %.200r, not %.200r" % row for row in rows if row[1] != row[2]], len(rows)
