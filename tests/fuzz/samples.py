"""What is turned: objects, and the images, graphs and maps that the program makes of them, with policies and scripts.

The objects are those of tests/objects, those of tests/shared/families.py that do not name the same bytes as two sections, and, where
compilers are there, the programs of tests/real. They are hardened in the program's forms in turn, in each form every other one under a list
of system calls. Images for several harts are also those that tests/model/drawn.py draws, each beside an object that is not its own.
"""

import os
import random
import struct
from pathlib import Path
from typing import NamedTuple, Optional

from tests.fuzz.turns import SYMTAB, sections
from tests.model import drawn
from tests.shared import families, programs
from tests.shared.forms import FORMS as TEXTS
from tests.shared.paths import ROOT

LEVELS = ["-O0", "-O2"]
SIZES = 3000, 50000  # bytes of an object of a family
USUAL = 20000  # bytes of a sample: larger ones are drawn less often
FOR_HARTS = 12  # how many images for several harts are drawn
FORMS = [form.encode() for form in TEXTS]
DATA, STACK = 0x10000, 0x10000000
INPUT = b"1+2*3\n(4 - 10) * -7\n" + programs.PROGRAMS[-1].input


class Symbol(NamedTuple):
    name: bytes
    section: int
    value: int


class Sample(NamedTuple):
    """An object with a name of a function of it, its image, graph and map where it can be hardened, in a form, and a policy of it."""
    name: str
    object: bytes
    entry: bytes
    image: Optional[bytes]
    graph: Optional[bytes]
    map: Optional[bytes]
    policy: Optional[bytes]
    form: bytes

    @property
    def is_listed(self):
        """Whether its image has a list of system calls."""
        return (self.graph or b"").split(b"\n")[2:3] != [] and self.graph.split(b"\n")[2].startswith(b"calls ")


def symbols(content):
    """The symbols of an object that have a name."""
    found = sections(content)
    table = next((it for it in found if it.kind == SYMTAB), None)
    if table is None or table.link >= len(found):
        return []
    names = content[found[table.link].start:][:found[table.link].size]
    rows = [struct.unpack_from("<IBBHQQ", content, at) for at in range(table.start, table.start + table.size - 23, 24)]
    named = [Symbol(names[row[0]:].split(b"\0", 1)[0], row[3], row[4]) for row in rows]
    return [it for it in named if it.name and not set(it.name) & set(b" \n$")]


def entries(content):
    """The names that may be an object's entry, those first that programs have."""
    found = sections(content)
    names = [it.name for it in symbols(content) if it.section < len(found) and found[it.section].is_code]
    return sorted(dict.fromkeys(names), key=lambda name: (name not in (b"_start", b"main"), names.index(name)))


def place_of(content, rows, address):
    """The PLACE of an instruction at an address of the image, by the rows of the map, or None."""
    before = [(section, offset) for gate, section, offset in rows if gate <= address]
    if not before:
        return None
    section, offset = before[-1]
    near = [it for it in symbols(content) if it.section == section and it.value <= offset]
    return b"%s+%x" % (near[-1].name, offset - near[-1].value) if near else None


def policy_of(content, graph, map_file):
    """A policy that lets each computed transfer go where the graph has it, as far as symbols name the places."""
    rows = [tuple(int(word, 16) for word in line.split()[1:]) for line in map_file.splitlines() if line.startswith(b"at ")]
    lines = [line.split() for line in graph.splitlines()]
    classes = {words[1]: [place_of(content, rows, int(word, 16)) for word in words[2:]]
               for words in lines if words[0] in (b"class", b"callclass", b"jumpclass")}
    sites = [[place_of(content, rows, int(words[1], 16))] + classes[words[3]] for words in lines if words[0] == b"site"]
    whole = [b" ".join([b"site"] + [it for it in places if it]) for places in sites if places[0]]
    calls = [line for line in graph.splitlines()[2:3] if line.startswith(b"calls ")]
    return b"\n".join([b"rvcfi-policy 2" if calls else b"rvcfi-policy 1"] + calls + whole + [b"end", b""])


def turns_of(draw):
    """The first lines of a script: one for one hart, or one for several with some turns."""
    if draw.random() < 0.6:
        return [b"rvcfi-script 1"]
    harts = draw.choice([1, 1, 2, 3, 8])
    turns = [(draw.randrange(harts), draw.choice([1, 1, 2, 10, 100])) for _ in range(draw.choice([0, 2, 20]))]
    return [b"rvcfi-script 2", b"harts %d" % harts] + [b"turn %d %d" % turn for turn in turns]


def script_of(draw):
    """A script of a few changes of data, most of them where programs have data or a stack."""
    lines, step = turns_of(draw), 0
    for _ in range(draw.randrange(6)):
        step += draw.choice([0, 1, draw.randrange(100), draw.randrange(3000)])
        base = draw.choice([DATA, STACK - 512, STACK - 128, STACK - 128, STACK + 2048, 0])
        at = min(max(0, base + draw.randrange(0, draw.choice([129, 512, 4096]), 8)), STACK + 4080)
        lines.append(b"at %d %08x %s" % (step, at, draw.randbytes(draw.choice([1, 8, 16])).hex().encode()))
    return b"\n".join(lines + [b"end", b""])


def of_compilers(folder):
    """The programs of tests/real by each compiler that is there: names and bytes."""
    here = programs.compilers_here("without its programs, since there is no %s: %s")
    paths = [programs.joined(each, level, program, folder) for each in here for level in LEVELS for program in programs.PROGRAMS]
    return {os.path.basename(path): Path(path).read_bytes() for path in paths}


def objects(folder):
    """All objects: names and bytes."""
    stored = str(ROOT / "tests" / "objects")
    found = {name: Path(os.path.join(stored, name)).read_bytes() for name in sorted(os.listdir(stored)) if name.endswith(".o")}
    found.update({"%s_%d" % (family.__name__, size): family(size) for family in families.FAMILIES for size in SIZES})
    return {**found, **of_compilers(folder)}


LISTS = [b"calls 63 64 93", b"calls 64", b"calls 0 1 62 63 64 93 94 2047"]


def list_of(number, folder):
    """The policy of each second object, by its number: one of the lists."""
    if number % 2 == 0:
        return b"none"
    path = os.path.join(folder, "list")
    with open(path, "wb") as file:
        file.write(b"rvcfi-policy 2\n%s\nend\n" % LISTS[number // 2 % len(LISTS)])
    return path


def form_of(number):
    """The form of an object, by its number: two after one another have one form, the second of them a list."""
    return FORMS[number // 2 % len(FORMS)]


def sample(name, content, form, policy, program, folder):
    """A sample of an object, hardened in a form at the first of its names that is taken."""
    path = os.path.join(folder, "object")
    with open(path, "wb") as file:
        file.write(content)
    made = [os.path.join(folder, end) for end in ("image", "graph", "map")]
    names = entries(content)[:5] or [b"main"]
    for entry in names:
        words = [b"rewrite"] if form == b"plain" else [b"harden", form]
        if program.call(words + [path, entry, policy] + made, folder).status == 0:
            image, graph, map_file = (Path(path).read_bytes() for path in made)
            return Sample(name, content, entry, image, graph, map_file, policy_of(content, graph, map_file), form)
    return Sample(name, content, names[0], None, None, None, None, form)


def for_harts(hardened):
    """Samples whose images are for several harts."""
    for k in range(FOR_HARTS):
        draw = random.Random(k)
        built = drawn.program(draw, 2, draw.choice((1, 2)))
        yield draw.choice(hardened)._replace(name="harts_%d" % k, image=built.image, graph=built.graph)


def samples(program, folder):
    found = [sample(name, content, form_of(k), list_of(k, folder), program, folder)
             for k, (name, content) in enumerate(objects(folder).items())]
    return found + list(for_harts([it for it in found if it.image and len(it.object) < USUAL]))
