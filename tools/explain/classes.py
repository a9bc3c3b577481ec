"""Where an object's computed transfers may go: the sets of its sites, and the classes that they are joined to.

Worked out from the object alone, so that it can be compared with a graph, and told without a policy.
"""

from typing import NamedTuple

from .elf import ABS32, ABS64, ADD32, ADD64, GOT_HI20, HI20, JALR, PCREL_HI20, fields
from .texts import place_words, policy_lines

IN_DATA, IN_CODE = {ABS32, ABS64, ADD32, ADD64}, {GOT_HI20, HI20, PCREL_HI20}


class Line(NamedTuple):
    """A line of a policy: its number, its site and its targets as places, None where there is no such place."""
    number: int
    site: object
    targets: list


def policy_of(read, path):
    """The lines of a policy but its first and last one."""
    found = []
    for number, words in policy_lines(path):
        if words[0] == "site":
            places = [place_of(read, text) for text in words[1:]]
            found.append(Line(number, places[0] if places else None, places[1:]))
    return found


def place_of(read, text):
    """The place that a policy's words name: the first symbol of the name counts."""
    words = place_words(text)
    found = read.named(words[0]) if words else []
    return (found[0].section, found[0].value + words[1]) if found and isinstance(found[0].section, int) else None


class Flow:
    """The sites of an object, by their place, with their kind, and the places whose address is taken."""

    def __init__(self, read):
        self.read = read
        self.places = dict(read.instructions())
        kinds = {place: self.kind_of(word) for place, word in self.places.items()}
        self.sites = {place: kind for place, kind in kinds.items() if kind}
        self.taken = self.taken_places()
        self.starts = {(row.section, row.value) for rows in read.functions.values() for row in rows}

    @staticmethod
    def kind_of(instruction):
        """Whether an instruction is a computed call or jump."""
        opcode, rd, rs1 = fields(instruction)
        if opcode != JALR or instruction >> 12 & 7:
            return None
        return "call" if rd == 1 else "jump" if rd == 0 and rs1 != 1 else None

    def taken_places(self):
        found = set()
        for row in self.read.relocations:
            kinds = IN_CODE if self.read.is_code(row.section) else IN_DATA
            target = self.read.target(row) if row.kind in kinds else None
            if target in self.places:
                found.add(target)
        return found

    def targets(self, site):
        """What a site may go to where no line of a policy says otherwise."""
        starts = self.taken & self.starts
        if self.sites[site] == "call":
            return starts
        rows = [row for row in self.read.functions[site[0]] if row.value <= site[1] < row.value + row.size]
        labels = {place for place in self.taken for row in rows if place[0] == site[0] and row.value <= place[1] < row.value + row.size}
        return starts | labels

    def classes(self, lines=(), is_split=False):
        """By each site the whole class of what it may go to; where calls and jumps have classes of their own, of its kind alone."""
        listed = {line.site: frozenset(line.targets) for line in lines}
        sets = {site: listed.get(site, frozenset(self.targets(site))) for site in self.sites}
        if not is_split:
            return closed(sets)
        of_kind = lambda kind: {site: targets for site, targets in sets.items() if self.sites[site] == kind}
        return {**closed(of_kind("call")), **closed(of_kind("jump"))}


def closed(sets):
    """Each site's set, joined with all that share a target with it."""
    joined = []
    for targets in set(sets.values()):
        sharing = [other for other in joined if other & targets]
        joined = [other for other in joined if not other & targets] + [frozenset(targets).union(*sharing)]
    return {site: next((whole for whole in joined if whole & targets), frozenset()) for site, targets in sets.items()}


def idle_lines(flow, lines, is_split=False):
    """The lines of a policy that change nothing, and of each the sites without a line that reach its site's class."""
    without, within = flow.classes((), is_split), flow.classes(lines, is_split)
    listed = {line.site for line in lines}
    for line in lines:
        if line.site in within and within[line.site] == without[line.site]:
            is_beside = lambda site: not is_split or flow.sites[site] == flow.sites[line.site]
            others = [site for site, targets in within.items() if targets == within[line.site] and site not in listed and is_beside(site)]
            yield line, sorted(others), set(line.targets) == set(without[line.site])


def doubtful_names(read, names):
    """The names that stand for more than one symbol: the first one, which is meant, and the others."""
    for name in sorted(set(names)):
        found = read.named(name)
        if len(found) > 1:
            yield found[0], found[1:]
