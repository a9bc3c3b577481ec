"""Whether the recorded pairs are those of docs/TUTORIAL.md, made anew by the model of tests/model from the objects of its section 1; and whether
the lean one is that of the model of tests/model."""

import shutil
from pathlib import Path

from library.tests.changed import recorded
from library.tests.checks import ended
from tests.model.hardener import Hardening, Source
from tests.model.joiner import Joined
from tests.model.lean_hardener import LeanHardening
from tests.model.small_objects import H
from tests.shared.texts import policy_text

REPOSITORY = Path(__file__).resolve().parents[2]
GCC, VERSION = "riscv64-linux-gnu-gcc", "12.2.0"
FILES = ["door.c", "memory.c", "start.s", "text.c", "visitors.c"]
OPTIONS = ["-O2", "-march=rv64im", "-mabi=lp64", "-mcmodel=medlow", "-ffixed-t5", "-ffixed-t6", "-fno-pic", "-ffreestanding"]
CALLS = 63, 64, 93
PAIRS = [("visitors", "", b"rewritten code 2420 data 151 classes 1 sites 1\n"),
         ("plugin", policy_text(CALLS), b"rewritten code 2532 data 151 classes 1 sites 1\n")]


def objects(folder):
    """The objects of the tutorial's program, in the order of their names."""
    for name in FILES:
        path = Path(folder) / (name[:-2] + ".o")
        options = OPTIONS if name.endswith(".c") else OPTIONS[1:3]
        status, _, err = ended([GCC, *options, "-c", str(REPOSITORY / "tests" / "real" / name), "-o", str(path)])
        if status:
            raise RuntimeError(err.decode())
        yield Source(path.read_bytes())


def is_the_models(told):
    """The recorded lean pair: a function that calls a leaf, which writes three bytes."""
    made = LeanHardening(Source(H.file()), "main", "lean", "")
    told.same("the recorded pair leaf", (made.image, made.graph), recorded("leaf"))


def is_the_tutorials(told, folder):
    is_the_models(told)
    if not shutil.which(GCC) or VERSION not in ended([GCC, "-dumpfullversion"])[1].decode():
        told.skip("the recorded pairs", "made anew they need %s %s" % (GCC, VERSION))
        return
    for name, policy, line in PAIRS:
        made = Hardening(Joined(list(objects(folder))), "_start", "plain", policy)
        told.same("the recorded pair %s" % name, (made.told(), made.image, made.graph), (line, *recorded(name)))
