"""The program for several harts, `clerks`: it does the same under every order of steps, and its planted fault, used by one hart
against the return address of another, opens the door in the plain program and ends the hardened one in a handler.

The plain program runs for several harts in the model of tests/model. What the orders come to must be what the host's build
makes of them, whoever works them off.

It is built for rv64im without -fpic at every level by each compiler, joined by `ld -r` and hardened in the form `harts`, at -O2
in each other form for several harts too, and attacked. Of what else there is each combination of a compiler, a processor,
-fpic or not, a form for several harts, `ld -r` or `link`, and a list of system calls or none is built at one level, in turn,
and runs under the same turns, without attacks. The forms for one hart are left out, since `begin` asks for a number of a hart.
"""

import concurrent.futures
import os
import random

from tests.shared import programs
from tests.shared.forms import FORMS, is_for_harts
from tests.shared.programs import CALLS, LEVELS, LIBRARY, Hardened, Linked, Program
from tools.simulator.machine import Machine


IN_FORMS = list(filter(is_for_harts, FORMS))
OFFICE = ["clerks.c", "lock.c", "door.c"]
ORDERS = [("+", 7, 0x1122334455667788), ("*", 3, -7), ("+", 7, 123456789), ("o", 0, 1), ("*", 1, 2**40), ("+", 4, 2**60 + 5),
          ("*", 0, 99), ("+", 2, -1), ("+", 5, 10**17), ("*", 6, 31)]
DOOR = b"the door is open\n"
OPENED, BAD_RETURN = ("exit", 42), ["handler", "__cfi_bad_return"]
TOP, STACK = 2**28, 2**20  # where hart 0's stack begins, and how far below it the next one's does
LIMIT = 2000000


def text(orders):
    return "".join("%s %d %d\n" % order for order in orders).encode()


def attack(row, slot, address):
    """An order whose value, the address, goes to a slot of a stack, where the row of who works it off is known; and others."""
    return text([("+", (slot - row) // 8, address)] + ORDERS[1:])


def return_slot(hart):
    """Where the first function of a hart keeps the address to which it returns."""
    return TOP - STACK * hart - 8


def rounds(harts, steps, count):
    """Turns of so many steps, one hart after another, so many of them."""
    return [(turn % harts, steps) for turn in range(count)]


def drawn(seed, harts, longest, count):
    """Turns of drawn harts and lengths."""
    rng = random.Random(seed)
    return [(rng.randrange(harts), rng.randrange(1, longest + 1)) for _ in range(count)]


ATTACKED = rounds(2, 3, 40000)
TURNS = [(1, []), (2, rounds(2, 1, 120000)), (2, drawn(1, 2, 200, 2000)), (8, rounds(8, 20, 40000)), (8, drawn(2, 8, 60, 30000))]
DRAWN = [(2, drawn(3, 2, 5, 30000)), (2, drawn(4, 2, 50, 3000)), (3, drawn(5, 3, 20, 8000)), (8, drawn(6, 8, 10, 60000)),
         (8, drawn(7, 8, 400, 2000))]


class Scripted:
    """Runs of several harts."""
    entry = "begin"

    def script(self, harts, turns, changes=()):
        """Writes a script of turns and changes, and answers its path."""
        lines = ["rvcfi-script 2", "harts %d" % harts] + ["turn %d %d" % turn for turn in turns]
        lines += ["at %d %08x %s" % (step, address, content.hex()) for step, address, content in changes]
        script = self.image + ".script"
        with open(script, "w") as file:
            file.write("\n".join(lines + ["end", ""]))
        return script

    def run_for(self, given, harts, turns, changes=()):
        """A run under a script: the output, how it stopped, and the steps."""
        _, output, report = self.run(given, self.script(harts, turns, changes), LIMIT)
        return output, report["stop"], int(report["steps"][0])


class Office(Scripted, Hardened):
    """The program, hardened for several harts."""


class LinkedOffice(Scripted, Linked):
    """The same, of objects that the tool joins."""


class Plain(Machine):
    """The plain program in the model: each hart starts where the hardened one's opening would call it, with the same stack. Of
    each number it is known where it was stored last."""

    def __init__(self, path, given, harts):
        super().__init__(2, b"", b"", given, harts)
        self.stored = {}
        for start, content in programs.segments(path):
            self.bytes.update({start + k: byte for k, byte in enumerate(content)})
        for hart in range(harts):
            self.pcs[hart] = programs.symbol(path, Office.entry)[1]
            self.registers[hart][2] = TOP - STACK * hart

    def store(self, address, count, value):
        self.stored[value] = address
        super().store(address, count, value)

    def run(self, turns):
        """How a run under these turns stops, and after how many steps."""
        steps = 0
        for hart, count in turns + [(0, LIMIT)]:
            for _ in range(count):
                steps += 1
                stop = self.step(hart)
                if stop:
                    return stop, steps
        return None, steps


def parted(output):
    """The results, and how many orders each hart has worked off."""
    results, _, shares = output.partition(b"shares")
    return results, [int(word) for word in shares.split()]


class Build:
    """The program as one compiler builds it at one level, not hardened and hardened in a form."""

    def __init__(self, tool, folder, compiler, level, form="harts", called="clerks", files=OFFICE, join="ld -r", listed=False):
        program = Program(called, ["harts.s"] + files, b"")
        self.form = form
        self.name = "%s %s %s, %s by %s%s" % (compiler.name, compiler.processor, level, form, join, ", listed" * listed)
        joined = programs.joined(compiler, level, program, folder)
        self.plain = programs.linked(joined)
        policy = programs.policy_file(CALLS, joined.replace("_joined.o", "_listed.policy")) if listed else "none"
        if join == "ld -r":
            self.office = Office(tool, joined, form, policy)
        else:
            objects = programs.objects_of(compiler, level, program, folder)
            self.office = LinkedOffice(tool, objects, joined.replace("_joined.o", "_" + form), form, policy)

    def door(self):
        """Where the door's function is, in the plain program and in the hardened one."""
        return programs.symbol(self.plain, "open_door")[1], self.office.gate("open_door")

    def row(self, harts, turns):
        """Where the row is of the hart that works off the first order, whose value is put into the last of its places."""
        machine = Plain(self.plain, text(ORDERS), harts)
        machine.run(turns)
        return machine.stored[ORDERS[0][2]] - 8 * ORDERS[0][1]


def of_runs(build, wanted):
    """Under all turns the results are the host's, and each order is worked off once; `compare` runs hart 0 alone."""
    given, office = text(ORDERS), build.office
    yield "verify", office.verified(), (0, b"accepted\n")
    yield "not hardened, under qemu", programs.under_qemu(build.plain, given), wanted
    done, counted = programs.counted(programs.for_qemu(office.image), given)
    yield "under qemu", done, wanted
    yield "steps", office.run_for(given, 1, [])[2], counted
    status, compared = office.compared(given)
    yield "compare", (status, compared.split()[:1]), (0, [b"same"])
    results = parted(wanted[0])[0]
    for harts, turns in TURNS:
        output, stop, _ = office.run_for(given, harts, turns)
        got, shares = parted(output)
        name = "%d harts, %d turns" % (harts, len(turns))
        yield name, (got, stop, sum(shares)), (results, ["hart", "0", "exit", str(wanted[1])], len(ORDERS))
        yield name + ", others than hart 0 worked", sum(shares[1:]) > 0, harts > 1


def of_attack_on_first(build, wanted):
    """Hart 1 works off an order that goes to the return address of hart 0's `main`."""
    plain, gate = build.door()
    row = build.row(2, ATTACKED)
    yield "hart 1's row is in its stack", TOP - 2 * STACK < row < TOP - STACK, True
    machine = Plain(build.plain, attack(row, return_slot(0), plain), 2)
    yield "plain, hart 0 attacked", (machine.run(ATTACKED)[0], machine.output[-len(DOOR):]), (OPENED, DOOR)
    output, stop, _ = build.office.run_for(attack(row, return_slot(0), gate), 2, ATTACKED)
    yield "hart 0 attacked", (output.count(b"\n"), DOOR in output, stop), (len(ORDERS) + 1, False, ["hart", "0"] + BAD_RETURN)


def of_attack_on_second(build, wanted):
    """Hart 0 works off an order, while hart 1 waits, that goes to the return address of hart 1's `work`."""
    plain, gate = build.door()
    row = build.row(1, [])
    yield "hart 0's row is in its stack", TOP - STACK < row < TOP, True
    steps = Plain(build.plain, text(ORDERS), 1).run([])[1], build.office.run_for(text(ORDERS), 1, [])[2]
    turns = [[(1, 100), (0, count // 2)] + ATTACKED for count in steps]
    machine = Plain(build.plain, attack(row, return_slot(1), plain), 2)
    yield "plain, hart 1 attacked", (machine.run(turns[0])[0], machine.output[-len(DOOR):]), (OPENED, DOOR)
    output, stop, _ = build.office.run_for(attack(row, return_slot(1), gate), 2, turns[1])
    yield "hart 1 attacked", (DOOR in output, stop), (False, ["hart", "1"] + BAD_RETURN)
    changes = [(steps[1] // 2, return_slot(1), gate.to_bytes(8, "little"))]
    output, stop, _ = build.office.run_for(text(ORDERS), 2, ATTACKED, changes)
    yield "hart 1 attacked by a script", (DOOR in output, stop), (False, ["hart", "1"] + BAD_RETURN)


def of_drawn_turns(build, wanted):
    """Who works off the order attacks the hart before, and hart 0 nobody: under no turns does the door open."""
    gate = build.door()[1]
    given = attack(build.row(2, ATTACKED), return_slot(0), gate)
    ends = [build.office.run_for(given, harts, turns)[:2] for harts, turns in DRAWN]
    stops = [stop[2:] for _, stop in ends]
    yield "drawn turns, the door", any(DOOR in output for output, _ in ends), False
    yield "drawn turns, other ends", [stop for stop in stops if stop not in (BAD_RETURN, ["exit", str(wanted[1])])], []
    yield "drawn turns, stopped", BAD_RETURN in stops, True


def of_no_lock(tool, folder, compiler, wanted):
    """Without the lock some of the same turns give something else."""
    build = Build(tool, folder, compiler, "-O2", called="lockless", files=["clerks.c", "no_lock.c", "door.c"])
    ends = [build.office.run_for(text(ORDERS), harts, turns)[:2] for harts, turns in TURNS]
    right = [parted(output)[0] == parted(wanted[0])[0] and sum(parted(output)[1]) == len(ORDERS) for output, _ in ends]
    yield "no lock, one hart", right[0], True
    yield "no lock, under all turns", all(right), False


def rows_of(tool, folder, compiler, level, wanted):
    """What is asked of one build, with its name; at one level in each form for several harts."""
    build = Build(tool, folder, compiler, level)
    asked = [of_runs, of_attack_on_first, of_attack_on_second] + [of_drawn_turns] * (level == "-O2")
    rows = rows_of_build(build, asked, wanted)
    for form in [each for each in IN_FORMS if each != build.form] if level == "-O2" else []:
        rows += rows_of_build(Build(tool, folder, compiler, level, form), [of_runs, of_attack_on_first], wanted)
    return rows


def ways():
    """Each form for several harts, with each way of joining, with a list and without."""
    return [(form, join, listed) for form in IN_FORMS for join in ("ld -r", "link") for listed in (False, True)]


def rows_of_ways(tool, folder, compiler, turn, wanted):
    """What is asked of a compiler's builds in each way, at a level that turns."""
    rows = []
    for number, (form, join, listed) in enumerate(ways()):
        level = LEVELS[(turn + number) % len(LEVELS)]
        build = Build(tool, folder, compiler, level, form, "clerks_too", OFFICE, join, listed)
        rows += rows_of_build(build, [of_runs], wanted)
    return rows


def rows_of_build(build, asked, wanted):
    rows = [("harden", build.office.told[0], 0)] + [row for each in asked for row in each(build, wanted)]
    return [(build.name + ", " + what, got, want) for what, got, want in rows]


def tried(tool, folder, compilers):
    """The failures, and how much was asked."""
    wanted = programs.on_host(Program("clerks", OFFICE, text(ORDERS)), folder)
    kinds = [kind for each in compilers for kind in (each, programs.shared(each))]
    for compiler in kinds:
        for level in LEVELS:
            for name in LIBRARY[compiler.processor] + ["harts.s"] + OFFICE:
                programs.compiled(compiler, level, name, folder)
    attacked = [each for each in compilers if each.processor == "rv64im"]
    calls = [(rows_of, compiler, level) for compiler in attacked for level in LEVELS]
    calls += [(rows_of_ways, compiler, turn) for turn, compiler in enumerate(kinds)]
    with concurrent.futures.ThreadPoolExecutor(os.cpu_count()) as pool:
        rows = [row for part in pool.map(lambda call: call[0](tool, folder, *call[1:], wanted), calls) for row in part]
    for compiler in attacked[:1]:
        rows += of_no_lock(tool, folder, compiler, wanted)
    return ["FAILED harts, %s: %.200r, not %.200r" % row for row in rows if row[1] != row[2]], len(rows)
