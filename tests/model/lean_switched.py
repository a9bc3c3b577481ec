"""The rules of graphs of version 3 with one of them, or a part of one, switched off. Some row of lean_faults.py whose run leaves its graph
has to be accepted then, so each is needed. Length, Unused, and where leaf ranges begin and end guard no run: they are not here."""


from tests.model.lean_rules import LeanPair

RULES = "Prologue", "Leaf", "Target", "Unlisted", "Site", "Gate", "Astray", "End"


def without(rule):
    """The rules but one."""
    def failing(self):
        return ((name, addresses) for name, addresses in LeanPair.failing(self) if name != rule)
    prologue = (lambda self: None) if rule == "Prologue" else LeanPair.prologue
    return type("Without", (LeanPair,), {"failing": failing, "prologue": prologue})


def letting(method, is_let):
    """The rules where a method lets more pass."""
    whole = getattr(LeanPair, method)
    return type("Letting", (LeanPair,), {method: lambda self, *given: is_let(self, *given) or whole(self, *given)})


def is_call(pair, at):
    return at not in pair.units or pair.kind(at) == "direct"


def is_saved(pair, at):
    return pair.range_of(at) is None and not pair.is_fresh(at)


def lacking(pair, is_let):
    """The targets without a gate of their class, but those that are let pass."""
    for label, (sort, targets) in pair.graph.classes.items():
        for at in targets:
            if at in LeanPair.lacking(pair) and not is_let(sort, pair.bears(at + (8 if sort == "callclass" else 0), label)):
                yield at


def gates_of(sort):
    """The rules where a gate of a class of a sort may stand before an enter or not."""
    return type("Letting", (LeanPair,), {"lacking": lambda self: lacking(self, lambda own, bears: own == sort and bears)})


WEAKER = [
    *[(rule, without(rule)) for rule in RULES],
    ("Unit: what may stand in a leaf range", letting("may_stand", lambda pair, at, kind: pair.range_of(at) is not None)),
    ("Unit: a leaf return outside of ranges", letting("may_stand", lambda pair, at, kind: pair.range_of(at) is None)),
    ("Leaf: a saved start before a fresh one", letting("may_go_on", is_saved)),
    ("Leaf: a leaf that goes on", letting("may_go_on", lambda pair, at: pair.range_of(at) is not None)),
    ("Leaf: an enter before a fresh start", letting("may_go_on", lambda pair, at: pair.kind(at) == "enter")),
    ("Target: calls", letting("may_lead", lambda pair, at, to: is_call(pair, at) and to in pair.units)),
    ("Target: jumps from saved starts", letting("may_lead", lambda pair, at, to: not is_call(pair, at) and is_saved(pair, at) and to in pair.units)),
    ("Target: jumps out of leaves", letting("may_lead", lambda pair, at, to: pair.range_of(at) is not None and to in pair.units)),
    ("Gate: an enter behind a gate of calls", gates_of("callclass")),
    ("Gate: no enter behind a gate of jumps", gates_of("jumpclass")),
]


def checks(faults):
    """Each part without a row that shows it, told in a line."""
    for name, weaker in WEAKER:
        if not any(weaker(each.version, each.words, each.graph).verdict() == "accepted" for each in faults):
            yield "switched off without a row that shows it: %s" % name
    print("switched off: %d rules and parts of rules" % len(WEAKER))
