"""The status that rvcfi ended with, by what it printed: docs/COMMANDS.md has all of them. A pipe hands on the text alone."""

from .texts import report_of

NO_TEXT = 4  # it may have been 5 too
BY_WORD = {"rewritten": 0, "accepted": 0, "same": 0, "refused": 1, "rejected": 1, "differs": 1, "usage:": 2, "read": 3, "too": 6,
           "limit": 12, "untame": 13}
BY_STOP = {"exit": 0, "handler": 10, "break": 11, "load": 11, "limit": 12}


def status_of(answer):
    """The status of an answer, or that of a text that could not be written."""
    words = answer[:100].decode("ascii", "replace").split()
    if words[:1] == ["output"]:
        return status_of_run(answer)
    return BY_WORD.get(words[0], NO_TEXT) if words else NO_TEXT


def status_of_run(answer):
    stops = [line for line in lines_of(answer) if line[0] == "stop"]
    words = stops[0][1:] if stops else []
    kind = words[2:3] if words[:1] == ["hart"] else words[:1]
    return BY_STOP.get(kind[0], NO_TEXT) if kind else NO_TEXT


def lines_of(answer):
    """The lines of a report behind the output; none where it is cut."""
    try:
        return report_of(answer)[1]
    except (ValueError, IndexError):
        return []
