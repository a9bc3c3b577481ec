"""What docs/COMMANDS.md and docs/FORMATS.md let each command say: for each status the forms of its text."""

import re

NUMBER, ADDRESS, LONG = rb"(?:0|[1-9][0-9]*)", rb"[0-9a-f]{8}", rb"[0-9a-f]{16}"
BYTE = rb"(?:[0-9]|[1-9][0-9]|1[0-9][0-9]|2[0-4][0-9]|25[0-5])"
REASON = rb"(?:Form|Range|Order)"
USAGE = rb"usage: rvcfi rewrite\|verify\|run\|compare\|demo\|harden\|link\|compare-link"

REFUSALS = {
    1: rb"NotElf", 2: rb"NotRelocatable N", 3: rb"NotRiscv N", 4: rb"Flags N", 5: rb"Truncated N", 6: rb"BadTable N",
    7: rb"SectionKind N", 8: rb"BadSymbol N", 9: rb"Undecodable N N N", 10: rb"ReservedRegister N N", 11: rb"BadTransfer N N",
    12: rb"BadPair N N", 13: rb"RelocKind N N N", 14: rb"RelocPlace N N", 15: rb"Undefined N", 16: rb"BadCodePointer N N",
    17: rb"NoEntry", 18: rb"Policy N", 19: rb"CodeTooLarge N", 20: rb"DataTooLarge N N", 21: rb"RelocRange N N",
    22: rb"(?:Short|Byte|Long) N", 23: rb"Graph N " + REASON, 24: rb"Map N (?:Place|" + REASON + rb")",
    25: rb"Script N " + REASON, 26: rb"Harts [2-8]", 27: rb"Duplicate .*", 28: rb"TooManySections N",
}
IN_OBJECT = (*range(1, 9), 15)  # of several objects, those that tell which
RULES = rb"(?:Prologue|Unit|Leaf|Target|Unlisted|Unused|Site|Gate|Astray|End)"
REJECTED = [rb"rejected " + RULES + rb" " + ADDRESS, rb"rejected Length N N"]
ITEM = rb"(?:" + rb" ".join([LONG] * 8) + rb" (?:-|(?:[0-9a-f]{2})+)|exit " + BYTE + rb"|break|stop|running)"
DIFFERS = rb"differs N\nsource " + ITEM + rb"\nimage " + ITEM


def refused(*numbers):
    return [b"refused %d " % number + REFUSALS[number] for number in numbers]


def refused_of_several(*numbers):
    """The same where several objects are joined."""
    return [text + rb" in N" if number in IN_OBJECT else text for number, text in zip(numbers, refused(*numbers))]


def report(stop):
    """A run's report, whose output is cut out: of an image for one hart, or for several."""
    trail, hart = rb"(?: " + ADDRESS + rb"){0,16}", rb"" if stop == rb"limit" else rb"hart [0-7] "
    walks = rb"(?:\nwalk [0-7] N\ntrail [0-7]" + trail + rb"){1,8}"
    return [rb"output N\n\nstop " + stop + rb"\nsteps N\nwalk N\ntrail" + trail,
            rb"output N\n\nharts [1-8]\nstop " + hart + stop + rb"\nsteps N" + walks]


def forms(texts):
    """One form of these texts, each with a newline after it."""
    return re.compile(re.sub(rb"\bN\b", lambda _: NUMBER, rb"(?:" + rb"|".join(texts) + rb")\n"), re.DOTALL)


REWRITTEN = [rb"rewritten code N data N classes N sites N"]
UNTAME = [rb"untame (?:graph|return|window|deep|end|call) N N"]
COMMON = {2: [USAGE], 3: [rb"read fault .*"], 6: [rb"too long .*"]}
FORMS = {
    b"rewrite": {0: REWRITTEN, 1: refused(*range(1, 22))},
    b"harden": {0: REWRITTEN, 1: refused(*range(1, 22))},
    b"link": {0: REWRITTEN, 1: refused_of_several(*range(1, 22), 27, 28)},
    b"verify": {0: [rb"accepted"], 1: refused(22, 23) + REJECTED},
    b"run": {0: report(b"exit " + BYTE), 1: refused(22, 23, 25, 26) + REJECTED,
             10: report(rb"handler __cfi_(?:bad_target|bad_return|deep)"),
             11: report(rb"(?:break " + ADDRESS + rb"|load " + ADDRESS + rb" " + LONG + rb")"), 12: report(rb"limit")},
    b"compare": {0: [rb"same N"], 1: refused(*range(1, 19), 20, 21, 22, 24) + [DIFFERS], 12: [rb"limit"], 13: UNTAME},
    b"compare-link": {0: [rb"same N"], 1: refused_of_several(*range(1, 19), 20, 21, 22, 24, 27, 28) + [DIFFERS], 12: [rb"limit"],
                      13: UNTAME},
}
FORMS = {command: {status: forms(texts) for status, texts in {**rows, **COMMON}.items()} for command, rows in FORMS.items()}
for command in (b"rewrite", b"harden", b"link"):
    FORMS[command][4] = re.compile(rb"")
NO_WORDS = {2: forms([USAGE])}


def without_output(text):
    """A report with its program's output cut out, and that output."""
    head, found, rest = text.partition(b"\n")
    words = head.split(b" ")
    if not found or len(words) != 2 or words[0] != b"output" or not words[1].isdigit():
        return text, b""
    length = int(words[1])
    return head + b"\n" + rest[length:], rest[:length]


def counts_wrong(text, steps):
    """What is wrong with the counts of a report without its output, or None."""
    lines = [line.split() for line in text.splitlines() if line]
    rows, front = {words[0]: words[1:] for words in lines}, 2 if b"\nharts " in text else 1
    walks = [int(words[front]) for words in lines if words[0] == b"walk"]
    trails = [len(words) - front for words in lines if words[0] == b"trail"]
    taken = int(rows[b"steps"][0])
    if taken > steps or rows[b"stop"] == [b"limit"] and taken != steps:
        return "%d steps of %d" % (taken, steps)
    if len(walks) != int(rows.get(b"harts", [1])[0]) or sum(walks) > taken or trails != [min(walk, 16) for walk in walks]:
        return "walks of %s and trails of %s in %d steps" % (walks, trails, taken)
    return None


def wrong(words, call):
    """What is wrong with how a call ended and what it said, or None."""
    if call.status < 0:
        return "it ended by signal %d" % -call.status
    if call.error:
        return "it wrote to standard error"
    if call.status == 5:
        return "it says that there was no memory"
    rows = FORMS.get(words[0] if words else b"", NO_WORDS)
    if call.status not in rows:
        return "its status is not one of the command's"
    text = without_output(call.output)[0] if words[:1] == [b"run"] else call.output
    if not rows[call.status].fullmatch(text):
        return "its text is not one of the status"
    if words[:1] == [b"run"] and text.startswith(b"output"):
        # the hyphens that end options are no word, wherever they stand
        return counts_wrong(text, int([word for word in words if word != b"--"][-1]))
    return None
