"""Policies, as docs/FORMATS.md has them."""


def calls_line(numbers):
    return "calls " + " ".join(map(str, numbers))


def policy_text(calls=None, lines=()):
    """A policy of a list of system calls, or without one, and some other lines."""
    heads = ["rvcfi-policy 1"] if calls is None else ["rvcfi-policy 2", calls_line(calls)]
    return "\n".join([*heads, *lines, "end", ""])
