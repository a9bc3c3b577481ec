"""The forms of hardening: what asks the program or the model in each form takes them from here."""

FORMS = ["plain", "harts", "split", "harts-split", "lean", "harts-lean"]
LEAN = ["lean", "harts-lean"]


def is_for_harts(form):
    """Whether its images are for several harts."""
    return form.startswith("harts")


def is_lean(form):
    """Whether x4 holds the mask of stores, and who is called saves the site of the call."""
    return form in LEAN


def is_apart(form):
    """Whether calls and jumps have classes and labels of their own."""
    return form not in ("plain", "harts")


def most_steps(form, count):
    """How many steps an image in a form takes at most for so many of its program's."""
    return (22 if is_apart(form) and not is_lean(form) else 21) * count + (17 if is_for_harts(form) else 13)
