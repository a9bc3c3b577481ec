"""A graph in names: its classes by functions and labels, its sites by function, and what a policy changes."""

from . import classes, numbers
from .elf import EBREAK, ECALL
from .texts import OPENING, place_words, policy_lines

SHOWN, NAMED = 4, 8


class Named:
    """A graph with the object and the map that it was made with."""

    def __init__(self, read, graph, placed):
        self.read, self.graph, self.map = read, graph, placed
        gates = set(placed.gates)
        self.bodies = {placed.place(to): to for _, to in graph.edges if to not in gates}  # of places with enters

    def place(self, address):
        """A place's name: a function's alone at its start, else as a policy has it."""
        if address == OPENING:
            return "the opening"
        place = self.map.place(address)
        if self.is_function(address):
            return self.owner(address)
        return self.read.name(place) if place else "%08x, in the prologue" % address

    def is_before_body(self, address):
        """Whether an address is before what a place with an enter begins with for who does not call it."""
        body = self.bodies.get(self.map.place(address))
        return body is not None and address < body

    def at_line(self, address):
        """` at `, and the file and line that an address is of, where debugging information has them."""
        place = self.map.place(address)
        return self.read.at_line(place) if place else ""

    def names(self, addresses):
        """The names of addresses, the first few of many."""
        more = " and %d more" % (len(addresses) - NAMED) if len(addresses) > NAMED else ""
        return (", ".join(self.place(address) for address in addresses[:NAMED]) or "nothing") + more

    def owner(self, address):
        """The function's name that an address is in."""
        if address == OPENING:
            return "the opening"
        place = self.map.place(address)
        return self.read.owner(place)[0] if place else "the prologue"

    def is_function(self, address):
        place = self.map.place(address)
        function = self.read.function(place) if place else None
        return function is not None and function.value == place[1]

    def by_size(self):
        return sorted(self.graph.classes.items(), key=lambda row: (-len(row[1]), row[0]))

    def lines(self, entry=None, policy=None):
        yield from self.summary()
        for label, targets in self.by_size():
            yield ""
            yield from self.class_lines(label, targets)
        yield ""
        yield from self.system_lines()
        yield from numbers.lines(self.read, self.graph.numbers)
        yield from self.difference(policy)
        if policy:
            yield from self.idle(policy)
        yield from self.doubtful(([entry] if entry else []) + policy_names(policy))

    def summary(self):
        sites = self.graph.sites
        calls = sum(site.kind == "call" for site in sites)
        of_jumps = sum(sort == " of jumps" for sort in self.graph.sorts.values())
        parts = " (%d of calls, %d of jumps)" % (len(self.graph.classes) - of_jumps, of_jumps) if self.graph.is_split else ""
        leaves = ", %d leaves" % len(self.graph.leaves) if self.graph.is_lean else ""
        yield "%d classes%s, %d computed calls, %d computed jumps, %d calls, %d branches and jumps%s" % (
            len(self.graph.classes), parts, calls, len(sites) - calls, len(self.graph.calls), len(self.graph.edges), leaves)

    def class_lines(self, label, targets):
        functions = [target for target in targets if self.is_function(target)]
        sites = self.graph.sites_of(label)
        yield "%s: %d targets (%d functions, %d labels), %d sites" % (
            self.graph.name(label), len(targets), len(functions), len(targets) - len(functions), len(sites))
        for site in sites:
            yield "    from %08x  computed %-4s  in %s%s" % (site.address, site.kind, self.place(site.address), self.at_line(site.address))
        for target in targets:
            kind = "function" if target in functions else "label"
            name = self.owner(target) if target in functions else self.place(target)
            yield "    to   %08x  %-13s  %s%s" % (target, kind, name, self.at_line(target))

    def system_lines(self):
        """How many ECALL and EBREAK there are, by function."""
        for what, wanted in (("ecall", ECALL), ("ebreak", EBREAK)):
            counts = {}
            for place, word in self.read.instructions():
                if word == wanted:
                    counts[self.read.owner(place)[0]] = counts.get(self.read.owner(place)[0], 0) + 1
            by = ", ".join("%s %d" % row for row in sorted(counts.items(), key=lambda row: (-row[1], row[0])))
            yield "%s: %d%s" % (what, sum(counts.values()), " (%s)" % by if by else "")

    def difference(self, policy):
        """Whether the object comes to this graph's classes."""
        flow = classes.Flow(self.read)
        wanted = flow.classes(classes.policy_of(self.read, policy) if policy else [], self.graph.is_split)
        told = {self.map.place(site.address): {self.map.place(target) for target in self.graph.classes.get(site.label, [])}
                for site in self.graph.sites}
        if told != {site: set(targets) for site, targets in wanted.items()}:
            yield from self.read.doubt("with this policy" if policy else "without a policy")

    def idle(self, policy):
        flow, lines = classes.Flow(self.read), classes.policy_of(self.read, policy)
        for line, others, is_all in classes.idle_lines(flow, lines, self.graph.is_split):
            yield "line %d of the policy changes nothing: the class of %s is as large as without a policy." % (
                line.number, self.read.name(line.site))
            if is_all:
                yield "    Its targets are all that the site reaches anyway."
            elif others:
                names = ", ".join(self.read.name(site) for site in others[:SHOWN])
                more = " and %d more" % (len(others) - SHOWN) if len(others) > SHOWN else ""
                yield "    Its targets are joined with those of sites without a line: %s%s." % (names, more)
            else:
                yield "    Its targets are joined with those of other lines."

    def doubtful(self, names):
        for first, others in classes.doubtful_names(self.read, names):
            hidden = [other for other in others if other.bind != "STB_LOCAL" and first.bind == "STB_LOCAL"]
            yield "the name %s stands for %s: %s is meant, not %s" % (
                first.name, self.read.stands_for(first, others), first.told(), (hidden or others)[0].told())


def policy_names(policy):
    """The names in a policy's places."""
    lines = policy_lines(policy) if policy else []
    places = [place_words(text) for _, words in lines if words[0] == "site" for text in words[1:]]
    return [place[0] for place in places if place]
