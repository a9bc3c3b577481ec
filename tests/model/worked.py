"""The programs for several harts and those with graphs of version 2 of crates/sample_programs, unit by unit: their sources for
binutils are in tests/units."""

import struct

from tests.model.program import Program
from tests.shared.instructions import BEQ, BNE, EBREAK, ECALL, SD, add, addi, ld, slli, u_form

ADDRESS, VALUE, POINTER = 128, 136, 64  # in data: of hart 0 its address and its value, and of all harts the pointer to f or g


def a_of_harts():
    """Exits with 7."""
    p = Program(2)
    p.label("main")
    p.plain(addi(10, 0, 7), addi(17, 0, 93), ECALL)
    p.stop()
    return p.built("main")


def shared():
    """Hart 0 exits with the double word at 10000h, into which each other hart stores its number."""
    p = Program(2)
    p.label("main")
    p.plain(u_form(0x37, 5, 0x10))
    p.near(BNE, 10, 0, "other")
    p.plain(ld(10, 5, 0))
    p.returns()
    p.label("other")
    p.store(SD, 10, 0, 5)
    p.returns()
    p.stop()
    return p.built("main")


JOBS_OF_HARTS = "caller storer caller storer echo loader breaker diver".split()


def job_data(labels):
    """The job of each hart, the pointer, and addresses and values: hart 1 turns the pointer to g, hart 3 the address to which
    the first call of hart 0 returns; hart 5 loads hart 0's oldest site."""
    pairs = {1: (0x10000 + POINTER, labels["g"]), 3: (0x0FFFFFF8, labels["g"]), 5: (0x60000008, 0)}
    numbers = [labels[job] for job in JOBS_OF_HARTS] + [labels["f"]] + [0] * 7
    for hart in range(8):
        numbers += pairs.get(hart, (0x10200, 0))
    return struct.pack("<%dQ" % len(numbers), *numbers)


def jobs():
    """Each hart goes to the job that its pointer at 10000h names."""
    p = Program(2)
    own = lambda rd: p.plain(slli(5, 10, 4), u_form(0x37, 6, 0x10), add(rd, 5, 6))

    def begin(name, label=1):
        p.label(name)
        p.gate(label)

    p.label("main")
    p.plain(slli(5, 10, 3), u_form(0x37, 6, 0x10), add(5, 5, 6), ld(5, 5, 0))
    p.ijump(5, 0, 1)
    begin("caller")
    p.plain(addi(2, 2, -16))
    p.store(SD, 1, 8, 2)
    own(5)
    p.plain(ld(6, 5, ADDRESS), ld(7, 5, VALUE))
    p.store(SD, 7, 0, 6)
    p.plain(u_form(0x37, 5, 0x10), ld(5, 5, POINTER))
    p.icall(5, 0, 2)
    p.plain(ld(1, 2, 8), addi(2, 2, 16))
    p.returns()
    for name, answer in (("f", 1), ("g", 2)):
        begin(name, 2)
        p.plain(addi(10, 0, answer))
        p.returns()
    begin("storer")
    own(5)
    p.label("again")
    p.plain(ld(6, 5, ADDRESS), ld(7, 5, VALUE))
    p.store(SD, 7, 0, 6)
    p.jump("again")
    begin("loader")
    own(5)
    p.plain(ld(6, 5, ADDRESS), ld(10, 6, 0))
    p.returns()
    begin("echo")
    own(11)
    p.plain(addi(11, 11, ADDRESS))
    p.label("more")
    p.plain(addi(10, 0, 0), addi(12, 0, 2), addi(17, 0, 63), ECALL, addi(12, 10, 0))
    p.near(BEQ, 12, 0, "done")
    p.plain(addi(10, 0, 1), addi(17, 0, 64), ECALL)
    p.jump("more")
    p.label("done")
    p.returns()
    begin("breaker")
    p.plain(EBREAK)
    p.stop()
    begin("diver")
    p.label("down")
    p.call("down")
    p.stop()
    begin("waiter")
    p.label("wait")
    p.jump("wait")
    p.stop()
    return p.built("main", job_data)


def q(version):
    """Jumps through the pointer at 10000h to f or g, and has a call that may go to g."""
    p = Program(version, graph=2)
    p.label("main")
    p.plain(u_form(0x37, 5, 0x10), ld(5, 5, 0))
    p.ijump(5, 0, 2)
    for name, call, answer in (("f", None, 1), ("g", 1, 2)):
        p.label(name)
        p.target(call, 2)
        p.plain(addi(10, 0, answer))
        p.returns()
    p.label("h")
    p.icall(5, 0, 1)
    p.returns()
    p.stop()
    return p.built("main", pointers("f", "g"))


def pointers(*names):
    """Data that point to places."""
    return lambda labels: struct.pack("<%dQ" % len(names), *[labels[name] for name in names])


def apart(version, graph=2):
    """Calls through one pointer and jumps through another one, each to a function of its own or to one that both may reach; in a
    graph of version 1 both may reach all three."""
    p = Program(version, graph)
    p.label("main")
    p.plain(addi(2, 2, -16))
    p.store(SD, 1, 8, 2)
    p.plain(u_form(0x37, 5, 0x10), ld(5, 5, 0))
    p.icall(5, 0, 1)
    p.plain(ld(1, 2, 8), addi(2, 2, 16), u_form(0x37, 5, 0x10), ld(5, 5, 8))
    p.ijump(5, 0, graph)
    for name, call, jump, answer in (("called", 1, None, 1), ("jumped", None, 2, 2), ("both", 1, 2, 4)):
        p.label(name)
        if graph == 2:
            p.target(call, jump)
        else:
            p.gate(1)
        p.plain(addi(10, 10, answer))
        p.returns()
    p.stop()
    return p.built("main", pointers("called", "jumped"))
