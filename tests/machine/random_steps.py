#!/usr/bin/env python3
"""Compares the machine with qemu on random words and registers.

    python3 tests/machine/random_steps.py [COUNT [SEED]]

Each case is one word at 40008000h with random registers, which code before it loads from data. A
small program over rv_machine, which is made in a folder of its own and run by `rt try`, executes
that one step and prints how it ended, the pc, the registers and the data bytes that it changed.
qemu executes the same bytes at the same addresses, and its log tells the same. A case is compared
where qemu comes to a next instruction; where it does not, since it has other pages than the machine
has regions, the machine must tell a stop or have left the code that qemu has. A jump to an address
that is no multiple of 4 is not compared: qemu stops at the jump, the machine at the fetch.
"""
import functools
import os
import random
import shutil
import struct
import subprocess
import sys
import tempfile
from pathlib import Path

HERE = Path(__file__).parent
CRATES = HERE.parent.parent / "crates"
CODE, CODE_SIZE, TESTED = 0x40000000, 0x100000, 0x40008000
DATA, DATA_SIZE = 0x10000, 0x2000
OFF = ["a", "f", "d", "c", "Zifencei", "Zicsr", "zba", "zbb", "zbc", "zbs"]
QEMU = ["qemu-riscv64", "-cpu", ",".join(["rv64"] + [f"{name}=false" for name in OFF])]
BATCH = 1000
SECONDS = 5  # of a case under qemu at most
LOG_SIZE, LOG_STATES = 1 << 18, 64  # how much of its log is read: the tested instruction is the 34th

OPCODES = [0x37, 0x17, 0x6F, 0x67, 0x63, 0x03, 0x23, 0x13, 0x1B, 0x33, 0x3B, 0x0F]

PROBE = """//! Executes one instruction for each line of standard input: a word and x1 to x31, in hexadecimal.
#![tactic(auto)]

use rv_instr::Reg;
use rv_machine::{Machine, Turn};
use rv_image::Image;
use std::alloc::{AllocError, Global};
use std::io;

fn put(bytes: &mut Vec<u8>, word: u32) -> Result<(), AllocError> {
    bytes.extend_from_slice(&word.to_le_bytes())
}

fn code(alloc: Global, tested: u32) -> Result<Vec<u8>, AllocError> {
    let mut bytes = vec![in alloc; 0; 12]?;
    put(&mut bytes, 0x0001_0fb7)?;
    for r in 1..32u32 {
        put(&mut bytes, (8 * r << 20) | (31 << 15) | (3 << 12) | (r << 7) | 3)?;
    }
    put(&mut bytes, 0x7750_706f)?;
    bytes.resize(0x8000, 0)?;
    put(&mut bytes, tested)?;
    Ok(bytes)
}

fn probe(rt: &HostRuntime, line: &str) -> io::Result<()> {
    let mut numbers = [0; 32];
    let mut at = 0;
    for word in line.split_whitespace() {
        numbers[at] = u64::from_str_radix(word, 16).unwrap();
        at += 1;
    }
    let code = code(rt.alloc(), numbers[0] as u32)?;
    let mut data = Vec::new(rt.alloc());
    data.extend_from_slice(&[0; 8])?;
    for r in 1..32 {
        data.extend_from_slice(&numbers[r].to_le_bytes())?;
    }
    let mut machine = Machine::new(rt.alloc(), &Image::of(&code, &data), &[], 1).unwrap();
    for _ in 0..33 {
        let _ = machine.step(0);
    }
    let told = if machine.step(0) == Ok(Turn::Ran) { "Ran" } else { "Stop" };
    print!(rt; "{told};{:x}", machine.pc(0))?;
    for r in 1..32 {
        print!(rt; " {:x}", machine.reg(0, Reg::of(r)))?;
    }
    print!(rt; ";")?;
    let end = if numbers[0] & 0x7f == 0x23 { 0x2000 } else { 0 };
    for k in 0..end {
        let now = machine.mem().byte(0x1_0000 + k as u64);
        if now != (if k < 256 { data[k] } else { 0 }) {
            print!(rt; " {k:x}={now:x}")?;
        }
    }
    println!(rt; "")
}

fn main(rt: HostRuntime) -> io::Result<()> {
    for line in rt.lines(rt.alloc()) {
        let line = line?;
        probe(&rt, line.as_str())?;
    }
    Ok(())
}
"""


def loads():
    """lui x31, 10h; ld x1, 8(x31) .. ld x31, 248(x31); jal x0 to the tested word."""
    words = [0x00010FB7]
    words += [8 * r << 20 | 31 << 15 | 3 << 12 | r << 7 | 3 for r in range(1, 32)]
    offset = TESTED - (CODE + 12 + 4 * len(words))
    jal = (offset >> 12 & 0xFF) << 12 | (offset >> 11 & 1) << 20 | (offset >> 1 & 0x3FF) << 21
    return words + [jal | 0x6F]


# li x17, 64; li x10, 1; lui x11, 10h; lui x12, 2h; ecall; li x10, 0; li x17, 93; ecall
TELLS = [0x04000893, 0x00100513, 0x000105B7, 0x00002637, 0x00000073, 0x00000513, 0x05D00893, 0x00000073]


def elf(word, registers):
    """A program with the case's code and data at their addresses."""
    code = bytearray(CODE_SIZE // 8)
    for at, value in enumerate(loads()):
        struct.pack_into("<I", code, 12 + 4 * at, value)
    for at, value in enumerate([word] + TELLS):
        struct.pack_into("<I", code, TESTED - CODE + 4 * at, value)
    data = struct.pack("<32Q", 0, *registers)
    head = b"\x7fELF\x02\x01\x01" + bytes(9)
    head += struct.pack("<HHIQQQIHHHHHH", 2, 243, 1, CODE + 12, 64, 0, 0, 64, 56, 2, 64, 0, 0)
    at_data = 0x1000
    at_code = 0x2000
    head += struct.pack("<IIQQQQQQ", 1, 6, at_data, DATA, DATA, len(data), DATA_SIZE, 0x1000)
    head += struct.pack("<IIQQQQQQ", 1, 5, at_code, CODE, CODE, len(code), CODE_SIZE, 0x1000)
    return head.ljust(at_data, b"\0") + data.ljust(at_code - at_data, b"\0") + bytes(code)


@functools.cache
def one_step():
    """The option of this qemu that logs each instruction; the older name is gone in newer ones."""
    told = subprocess.run(QEMU + ["-help"], capture_output=True, text=True, timeout=SECONDS).stdout
    return "-singlestep" if "-singlestep" in told.split() else "-one-insn-per-tb"


def by_qemu(folder, word, registers):
    """The next pc, the registers and the changed data bytes where it fell through; None: no next."""
    program, log = f"{folder}/case", f"{folder}/log"
    Path(program).write_bytes(elf(word, registers))
    os.chmod(program, 0o700)
    told = QEMU + [one_step(), "-d", "cpu,nochain", "-D", log, program]
    try:
        output = subprocess.run(told, stdout=subprocess.PIPE, stderr=subprocess.DEVNULL, timeout=SECONDS).stdout
    except subprocess.TimeoutExpired:  # (a branch to itself, say)
        output = b""
    with open(log) as text:
        states = text.read(LOG_SIZE).split(" pc ")[1:LOG_STATES]
    pcs = [int(state.split(None, 1)[0], 16) for state in states]
    at = pcs.index(TESTED)
    if at + 1 >= len(states):
        return None
    told = states[at + 1].split()[1:]
    values = [int(value, 16) for value in told[3:64:2]]
    changed = None
    if pcs[at + 1] == TESTED + 4 and len(output) == DATA_SIZE:
        before = struct.pack("<32Q", 0, *registers).ljust(DATA_SIZE, b"\0")
        changed = {k: output[k] for k in range(DATA_SIZE) if output[k] != before[k]}
    return pcs[at + 1], values, changed


def number(rng):
    """A register's value: any number, a small one, or an address in data or code."""
    kind = rng.randrange(5)
    if kind == 0:
        return rng.getrandbits(64)
    if kind == 1:
        return rng.randrange(-100, 100) % 2**64
    if kind == 2:
        return rng.choice([0, 1, 2**31 - 1, 2**31, 2**32 - 1, 2**63 - 1, 2**63, 2**64 - 1])
    if kind == 3:
        return DATA + 0x900 + rng.randrange(0x1000 - 0x200)
    return CODE + 0x9000 + rng.randrange(0x10000)


def case(rng):
    word = rng.getrandbits(32)
    if rng.randrange(10):
        word = word & ~0x7F | rng.choice(OPCODES)
        if rng.randrange(4) and word & 0x7F in (0x1B, 0x33, 0x3B):
            word = word & 0x01FFFFFF | rng.choice([0, 0x40000000, 0x02000000])
    registers = [number(rng) for _ in range(31)]
    if word & 0x7F in (0x03, 0x23, 0x67) and rng.randrange(8):
        base = word >> 15 & 31
        if base:
            place = DATA + 0x900 if word & 0x7F != 0x67 else CODE + 0x9000
            registers[base - 1] = place + rng.randrange(0xE00)
    return word, registers


def by_machine(folder, cases):
    text = "".join(" ".join(f"{n:x}" for n in [word] + registers) + "\n" for word, registers in cases)
    words = ["rt", "try", "--seconds", "3000"]
    ran = subprocess.run(words, cwd=f"{folder}/crates/probe", input=text, capture_output=True, text=True)
    lines = [line for line in ran.stdout.splitlines() if line.count(";") == 2]
    if len(lines) != len(cases):
        sys.exit(f"the program ended early:\n{ran.stdout[-2000:]}\n{ran.stderr[-2000:]}")
    for line in lines:
        turn, state, bytes_changed = line.split(";")
        pc, *registers = (int(value, 16) for value in state.split())
        pairs = (pair.split("=") for pair in bytes_changed.split())
        yield turn, pc, registers, {int(k, 16): int(v, 16) for k, v in pairs}


def repository(folder):
    """The crates below the machine, and the program over it."""
    os.makedirs(f"{folder}/crates/probe/src")
    lines = ["probe: rv_machine rv_word rv_image rv_instr\n"]
    for line in (CRATES.parent / "crates.txt").read_text().splitlines():
        name = line.split(":")[0].strip()
        if name in ("rv_word", "rv_image", "rv_instr", "rv_code", "rv_mem", "rv_sys", "rv_machine"):
            shutil.copytree(CRATES / name, f"{folder}/crates/{name}", ignore=shutil.ignore_patterns("out"))
            lines.append(line + "\n")
    Path(f"{folder}/crates.txt").write_text("".join(lines))
    Path(f"{folder}/crates/probe/src/main.rt").write_text(PROBE)


def agrees(case, ours, theirs):
    """Whether both say the same; None where qemu says nothing that the machine could contradict."""
    turn, pc, registers, changed = ours
    if pc % 4:
        return None
    if theirs is None:
        left = not CODE <= pc < CODE + CODE_SIZE
        faults = turn != "Ran" or left
        other_pages = case[0] & 0x7F in (0x03, 0x23)
        return None if faults or other_pages else False
    if turn != "Ran":
        return False
    same = theirs[0] == pc and theirs[1] == registers
    return same and (theirs[2] is None or theirs[2] == changed)


def main():
    count, seed = (int(word) for word in (sys.argv[1:] + ["2000", "1"][len(sys.argv) - 1 :]))
    if not shutil.which("qemu-riscv64"):
        print("skipped: there is no qemu-riscv64")
        return
    rng = random.Random(seed)
    compared = asked = 0
    with tempfile.TemporaryDirectory() as folder:
        repository(folder)
        while compared < count:
            cases = [case(rng) for _ in range(BATCH)]
            for it, ours in zip(cases, by_machine(folder, cases)):
                verdict = agrees(it, ours, by_qemu(folder, *it))
                asked += 1
                compared += verdict is not None
                if verdict is False:
                    sys.exit(f"differs: {it[0]:08x} {it[1]}\n{ours}\n{by_qemu(folder, *it)}")
            print(f"{compared} compared of {asked}", flush=True)
            if compared < count and asked >= 10 * max(count, BATCH):
                sys.exit(f"no more than {compared} of {asked} words could be compared")
    print(f"the same: {compared} words of {asked}")


main()
