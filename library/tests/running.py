"""The library's run on the tutorial's programs, on its refusals, and on programs that are drawn."""

import random
import re
from pathlib import Path

from library.tests.changed import recorded
from library.tests.checks import ended
from library.tests.loading import DOOR, EVENING, GREETED
from tests.model import drawn
from tests.model.program import Program
from tests.real import attack
from tools.simulator.runs import answer

REPOSITORY = Path(__file__).resolve().parents[2]


class Runner:
    """The example `run`, and a folder for the files that it is given."""

    def __init__(self, command, folder, told):
        self.command, self.folder, self.told = command, Path(folder), told

    def ran(self, pair, given, limit, script=None):
        files = {"image": pair[0], "graph": pair[1], "input": given, **({} if script is None else {"script": script})}
        for name, content in files.items():
            (self.folder / name).write_bytes(content)
        names = [str(self.folder / name) if name in files else "none" for name in ("image", "graph", "script", "input")]
        return ended(self.command + names + [str(limit)])[:2]

    def expect(self, what, wanted, *words):
        self.told.same("run: " + what, self.ran(*words), wanted)


def report(output, stop, steps):
    """What is printed of a run."""
    return b"output %d\n%s\nstop %s\nsteps %d\n" % (len(output), output, stop, steps)


def of_the_tutorial(runner):
    """Its sections 3 and 4, and what is refused."""
    pair = recorded("visitors")
    runner.expect("the evening", (0, report(GREETED, b"exit 1", 597)), pair, EVENING, 1000000)
    runner.expect("the evening in 596 steps", (12, report(GREETED, b"limit", 596)), pair, EVENING, 596)
    runner.expect("the return", (10, report(b"", b"handler __cfi_bad_return", 238)), pair, attack.returned(DOOR), 1000000)
    runner.expect("the pointer", (10, report(b"", b"handler __cfi_bad_target", 127)), pair, attack.pointer(DOOR), 1000000)
    runner.expect("an undisturbed script", (0, report(GREETED, b"exit 1", 597)), pair, EVENING, 1000000, b"rvcfi-script 1\nend\n")
    runner.expect("no script", (1, b"refused 25 Script 2 Form\n"), pair, EVENING, 9, b"rvcfi-script 1\nstop\n")
    runner.expect("a script for two harts", (1, b"refused 26 Harts 2\n"), pair, EVENING, 9, b"rvcfi-script 2\nharts 2\nend\n")
    runner.expect("no image", (1, b"refused 22 Short 0\n"), (b"", pair[1]), EVENING, 9)
    runner.expect("another graph", (1, b"rejected Length 2420 2532\n"), (pair[0], recorded("plugin")[1]), EVENING, 9)


def of_a_small_stack(runner):
    """The whole program with 64 KiB of stack."""
    small = Runner(["env", "-i", "sh", "-c", 'ulimit -s 64; exec "$@"', "sh", *runner.command], runner.folder, runner.told)
    small.expect("64 KiB of stack", (0, report(GREETED, b"exit 1", 597)), recorded("visitors"), EVENING, 1000000)


def modelled(built, given, limit):
    """The status and the report of a run, by the model of tests/model, without the numbers of harts."""
    status, told = answer(built, None, given, limit)
    length, rest = int(told.split(b"\n")[0].split()[1]), told.split(b"\n", 1)[1]
    stop = re.search(rb"^stop (?:hart \d+ )?(.*)\n", rest[length:], re.M).group(1)
    steps = int(re.search(rb"^steps (\d+)", rest[length:], re.M).group(1))
    return status, report(rest[:length], stop, steps)


def of_depth(runner):
    """A program that calls itself, up to its handler and to the step before."""
    p = Program(1)
    p.label("main")
    p.call("main")
    p.stop()
    built = p.built("main")
    wanted = modelled(built, b"", 1000000)
    last = int(wanted[1].split()[-1])
    runner.told.same("run: the model's depth", wanted, (10, report(b"", b"handler __cfi_deep", last)))
    for limit in last, last - 1:
        runner.expect("%d steps into depth" % limit, modelled(built, b"", limit), (built.image, built.graph), b"", limit)


def of_drawn_programs(runner, count, seed):
    """Programs for one hart and for several, of which hart 0 runs, against the model of tests/model."""
    rng, wrong = random.Random(seed), []
    for k in range(count):
        built = drawn.program(rng, rng.choice((1, 2)), rng.choice((1, 2)))
        limit, given = rng.choice((50, 300, 1000)), rng.randbytes(rng.choice((0, 3, 20)))
        got, wanted = runner.ran((built.image, built.graph), given, limit), modelled(built, given, limit)
        if got != wanted:
            wrong.append("run: drawn program %d: %r, not %r" % (k, got, wanted))
    runner.told.count(count - len(wrong), wrong)


def run_all(told, command, folder, count, seed=1):
    runner = Runner(command, folder, told)
    of_the_tutorial(runner)
    of_a_small_stack(runner)
    of_depth(runner)
    of_drawn_programs(runner, count, seed)
