"""What the model of `compare` tells of small objects and of drawn ones, in each form: beside their own images nothing ever differs, within
the bounds on steps; and a run of the program itself ends where and after as many instructions as its image's run shows.

With a program, its `compare` has to answer as this model does, also of an image that is another object's.
"""

import random
from collections import Counter

from tests.model.accepted import LISTS
from tests.model.compared import SourceRun, compared, form_of
from tests.model.forms import LISTING, ROWS, STORING
from tests.model.hardener import Source, small_object
from tests.model.hardening import hardened_in
from tests.model.lean_drawn import LeanWriting
from tests.model.lean_hardener import is_outside_of_lean
from tests.model.lean_kinds import Given, Model, Program
from tests.model.maps import ended, is_outside
from tests.shared.forms import FORMS, is_lean
from tests.shared.texts import policy_text

LIMIT, MOST, INPUT = 1000, 200000, b"abc"


def end_of(source):
    """How a program's own run ends, in the words of maps.py."""
    if source.untame:
        return "untame %s %d %d after %d" % (*source.untame, source.steps)
    return "exit %d after %d" % (source.end[1], source.steps)


def small_ones():
    """The small objects of tests/model/forms.py, each with a form, and with what the model makes of it."""
    for row in ROWS + STORING + LISTING:
        given = Given((small_object(row),), "", row.policy_text(), row.entry)
        yield from ((row.name, given._replace(form=form)) for form in FORMS)


def drawn_ones(rng, count):
    """Drawn objects, each in each form, with a list of system calls or none."""
    for number in range(count):
        calls = rng.choice(LISTS)
        content = LeanWriting(rng, tuple(calls)).object().file()
        policy = policy_text(*rng.choice(((), (calls,))))
        yield from (("drawn object %d" % number, Given((content,), form, policy)) for form in FORMS)


def unlike_ends():
    """Small objects whose own runs end otherwise than their images' runs show; maps.py tells no end by a computed transfer."""
    for name, given in small_ones():
        made = hardened_in(given.form, Source(given.contents[0]), given.entry, given.policy)
        got = end_of(SourceRun(made, given.entry, b"").run(MOST))
        if got.startswith("untame graph"):
            continue
        wanted = ended(made, is_outside_of_lean if is_lean(given.form) else is_outside)
        if got != wanted:
            yield "%s in form %s: its own run ends %s, not %s" % (name, given.form, got, wanted)


def checks(seed, many):
    """What fails, told in a line; and at last what was counted."""
    yield from unlike_ends()
    told = Counter()
    for name, given in drawn_ones(random.Random("compared %d" % seed), 60 * many):
        made = hardened_in(given.form, Source(given.contents[0]), given.entry, given.policy)
        text = compared(made, given.entry, made.built, INPUT, LIMIT)[1]
        told[" ".join(text.split()[:2 if text[:6] == "untame" else 1])] += 1
        if text.startswith("differs"):
            yield "%s in form %s: %s" % (name, given.form, text)
    print("compared with their own images: " + ", ".join("%s %d" % each for each in sorted(told.items())))


def check_program(told, seed):
    """A program's `compare` of small and drawn objects, beside their own images and another one's."""
    asked, model, count, before = Program(told.program, told.folder), Model(), 0, None
    for name, given in [*small_ones(), *drawn_ones(random.Random(seed), 40)]:
        made = given.made
        for image in {made.image, before or made.image}:
            limit, count = LIMIT if image == made.image else 200, count + 1
            got, wanted = (each.compared(given, image, made.map, limit) for each in (asked, model))
            told.check(got == wanted, "%s in form %s: compare tells %r, not %r" % (name, form_of(made.map), got, wanted))
        before = made.image
    print("asked of the program: %d comparisons" % count)
