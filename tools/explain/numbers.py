"""Which system calls a program makes: the constant that stands in x17 before each ECALL, where it can be told."""

from .elf import ECALL, fields
from .units import BRANCH, JAL, branch_offset, jal_target

STORE, JALR, ADDI, ADDIW, LUI, CALLED = 0x23, 0x67, 0x13, 0x1B, 0x37, 17  # x17 is a7
CHANGED = [10]  # what a system call changes
SHOWN = 6
MOST = 2047


def entered(read):
    """The places that are entered otherwise than from the instruction before them: functions, symbols and targets in code."""
    found = set(read.at)
    for row in read.relocations:
        place = read.target(row)
        if place:
            found.add(place)
    for (section, offset), word in read.instructions():
        if word & 127 == BRANCH:
            found.add((section, offset + branch_offset(word)))
        elif word & 127 == JAL:
            found.add((section, jal_target(word, offset)))
    return found


def number_before(read, place, targets):
    """The constant in x17 at an ECALL, or None where it cannot be told: the last write before it is looked for, and neither a place
    that is entered from elsewhere nor a call may lie between."""
    section, offset = place
    while offset > 0 and (section, offset) not in targets:
        offset -= 4
        word = read.word_at((section, offset))
        opcode, rd, rs1 = fields(word)
        if opcode in (JAL, JALR) or word == ECALL:
            return None
        if opcode not in (STORE, BRANCH) and rd == CALLED:
            is_constant = opcode == ADDI and word >> 12 & 7 == 0 and rs1 == 0 and not read.at_place((section, offset))
            return (word >> 20) - (word >> 31 << 12) if is_constant else None
    return None


def number_after(read, places, place):
    """The constant in x17 at an ECALL behind the places of a walk, or None where neither these nor the code before it tell it."""
    known = {0: 0}
    for each in places:
        if each is not None:
            take(read, each, known)
    return known[CALLED] if CALLED in known else number_before(read, place, entered(read))


def take(read, place, known):
    """What is known of registers behind an instruction: sums of constants, and nothing else."""
    word = read.word_at(place)
    opcode, rd, rs1 = fields(word or 0)
    if opcode in (STORE, BRANCH):
        return
    value = None
    if opcode in (ADDI, ADDIW) and word >> 12 & 7 == 0 and rs1 in known:
        value = known[rs1] + (word >> 20) - (word >> 31 << 12)
    elif opcode == LUI:
        value = (word >> 12 << 12) - (word >> 31 << 32)
    written = CHANGED if word == ECALL else [rd]
    for each in written:
        known.pop(each, None)
    if value is not None and not read.at_place(place):
        known[rd] = value
    known[0] = 0


def by_number(read):
    """The functions with an ECALL by its number, None where it cannot be told, each with how many it has."""
    targets, found = entered(read), {}
    for place, word in read.instructions():
        if word == ECALL:
            counts, owner = found.setdefault(number_before(read, place, targets), {}), read.owner(place)[0]
            counts[owner] = counts.get(owner, 0) + 1
    return found


def shown(counts):
    rows = sorted(counts.items(), key=lambda row: (-row[1], row[0]))
    more = " and %d functions more" % (len(rows) - SHOWN) if len(rows) > SHOWN else ""
    return ", ".join("%s %d" % row for row in rows[:SHOWN]) + more


def lines(read, listed):
    """The system calls by number, and what a list lets through, or which list would do."""
    found = by_number(read)
    known = sorted(number for number in found if number is not None)
    for number in known:
        outside = ", which is not in the list" if listed is not None and number not in listed else ""
        yield "system call %d: %s%s" % (number, shown(found[number]), outside)
    if None in found:
        yield "system calls whose number cannot be told: %s" % shown(found[None])
    if listed is not None:
        idle = [number for number in listed if number not in found]
        more = "; no call is known to need %s" % " or ".join(map(str, idle)) if idle else ""
        yield "the list: calls %s%s" % (" ".join(map(str, listed)), more)
    elif None not in found and 0 < len(known) <= 8 and 0 <= known[0] and known[-1] <= MOST:
        yield "no list; one with which all of these are made: calls %s" % " ".join(map(str, known))
