"""The code of an image as units, as docs/MACHINE.md has them, without asking whether they are right."""

from typing import NamedTuple

from .texts import CODE, HANDLERS, OPENING

LUI, BRANCH, JAL, STORE, SYSTEM = 0x37, 0x63, 0x6F, 0x23, 0x73
ROOM, MASK, RETURN = 0x03019F13, 0xFFCFFF93, 0xFF81BF83  # the words that tell calls (of lean images enters), checks and returns
SHIFT = 0x024F9F93
SHORT, LONG, LEAF_RETURN = 0x00407FB3, 0x004FFFB3, 0x00008067  # of lean images: a short mask but for its base, the end of a long one
BASE = 0x000F8000  # the bits of rs1
JUMP_BACK = 0x000F8067
MOST_STORES = 16  # behind one mask
NUMBER, TEST = 0x00000F93, 0x011F8063  # `addi x31,x0,N` and `beq x31,x17,..` without their offsets
MOST_NUMBERS = 8  # of a guarded system call


class Unit(NamedTuple):
    """Where a unit starts, its kind, its count of words, its direct target or its label, if any, and how far behind its destination
    its check reads; of a guarded system call the numbers that it lets through, and of stores the words of their mask."""
    address: int
    kind: str
    size: int
    target: object = None
    label: object = None
    past: int = 0
    numbers: tuple = ()
    mask: int = 0


def jal_target(word, at):
    """Where the JAL at an address goes."""
    offset = (word >> 12 & 0xFF) << 12 | (word >> 20 & 1) << 11 | (word >> 21 & 0x3FF) << 1
    return at + offset - ((word >> 31) << 20)


def branch_offset(word):
    offset = (word >> 7 & 1) << 11 | (word >> 8 & 15) << 1 | (word >> 25 & 63) << 5
    return offset - ((word >> 31) << 12)


def is_jump(word, rd=0):
    """Whether a word is `jal x0`, or `jal` with another register."""
    return word & 0xFFF == JAL | rd << 7


def stores_behind(words, index):
    """How many stores stand behind a mask, from a word of the code on."""
    for count, word in enumerate(words[index:index + MOST_STORES]):
        if word & 127 != STORE or word >> 15 & 31 != 31 or word >> 31:
            return count
    return len(words[index:index + MOST_STORES])


def numbers_at(words, index):
    """The numbers that are tested from a word of the code on."""
    found = []
    while len(found) < MOST_NUMBERS and index + 1 < len(words):
        if words[index] & 0x800FFFFF != NUMBER or words[index + 1] & 0x01FFF07F != TEST:
            break
        found.append(words[index] >> 20)
        index += 2
    return tuple(found)


def unit_at(words, index, is_lean=False):
    """The unit that begins with a word of the code, by the templates of lean images or by those of others."""
    at, word = CODE + 4 * index, words[index]
    following = words[index + 1] if index + 1 < len(words) else 0
    if word & 0xFFF == LUI:
        return Unit(at, "gate", 1, label="%05x" % (word >> 12))
    if word & 127 == BRANCH:
        if branch_offset(word) == 8 and is_jump(following):
            return Unit(at, "branch", 2, jal_target(following, at + 4))
        return Unit(at, "near branch", 1, at + branch_offset(word))
    if is_jump(word):
        target = jal_target(word, at)
        return Unit(at, "stop", 1) if target == CODE else Unit(at, "jump", 1, target)
    if word & 127 == SYSTEM:
        return Unit(at, "system", 1)
    if word == RETURN:
        return Unit(at, "return", 5)
    listed = numbers_at(words, index)
    if listed:
        return Unit(at, "guarded call", 2 * len(listed) + 2, numbers=listed)
    own = (lean_unit if is_lean else older_unit)(words, index, at, word, following)
    return own or Unit(at, "plain", 1)


def older_unit(words, index, at, word, following):
    """A call, stores, or a computed transfer, as they are under graphs of versions 1 and 2."""
    if word == ROOM and index + 8 <= len(words):
        return Unit(at, "call", 8, jal_target(words[index + 7], at + 28))
    if following == SHIFT:
        return stores(words, index, at, 3)
    if following == MASK and index + 13 <= len(words):
        return computed(words, index, at, 13, 20)
    return None


def lean_unit(words, index, at, word, following):
    """A call, an enter, a leaf's return, stores, or a computed transfer, as they are under graphs of version 3."""
    if is_jump(word, 1):
        return Unit(at, "call", 1, jal_target(word, at))
    if word in (ROOM, LEAF_RETURN):
        return Unit(at, "enter", 5) if word == ROOM else Unit(at, "leaf return", 1)
    if word & ~BASE == SHORT:
        return stores(words, index, at, 1)
    if following == LONG:
        return stores(words, index, at, 2)
    if following == MASK and index + 15 <= len(words):
        return computed(words, index, at, 15, 15)
    return None


def stores(words, index, at, mask):
    """Stores behind a mask of so many words."""
    return Unit(at, "store", mask + max(1, stores_behind(words, index + mask)), mask=mask)


def computed(words, index, at, jump, call):
    """A computed transfer, which has so many words where it is a jump, or a call."""
    kind, size = ("computed jump", jump) if words[index + jump - 1] == JUMP_BACK else ("computed call", call)
    return Unit(at, kind, size, None, "%05x" % (words[index + 8] >> 12), words[index + 7] >> 20)


def split(words, prologue):
    """The prologue's parts and then the units, one behind another."""
    last = (OPENING - CODE) // 4 + prologue.opening - 1
    found = [Unit(at, "handler " + name, 1) for at, name in HANDLERS.items()]
    entry = jal_target(words[last], CODE + 4 * last) if len(words) > last else None
    found.append(Unit(OPENING, "opening", prologue.opening, entry))
    found.append(Unit(prologue.closing, "closing", 2))
    index = (prologue.units - CODE) // 4
    while index < len(words):
        unit = unit_at(words, index, prologue.is_lean)
        found.append(unit)
        index += unit.size
    return found
