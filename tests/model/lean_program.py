"""Programs whose graphs have version 3, by their units: x4 holds the mask of stores, and who is called saves the site of the call.

A function saves it by an enter, behind its lead; one that calls nothing and leaves x1 alone may be a leaf, which returns by x1.
"""


from tests.model.program import Program
from tests.shared.instructions import addi, i_form, jal, r_form, s_form, u_form
from tests.shared.units import check, push

NOP, LEAF_RETURN = addi(0, 0, 0), i_form(0x67, 0, 0, 1, 0)
MASK = [u_form(0x37, 4, 0x10000), addi(4, 4, -1)]  # makes x4 anew
PAST = {"jump": 0, "call": 8}  # how far behind the address that a computed transfer is given it goes, and its check reads


def enter(at):
    """Saves the site of the call that came here, or halts where there is no slot."""
    return push(at)[:3] + [s_form(3, 3, 1, 0), addi(3, 3, 8)]


def short_mask(rs1):
    return [r_form(0x33, 7, 0, 31, rs1, 4)]


def long_mask(rs1, imm):
    return [addi(31, rs1, imm), *short_mask(31)]


def computed(at, rs1, imm, label, kind):
    """A computed jump or call."""
    past = PAST[kind]
    return check(at, rs1, imm, label, past) + MASK + [i_form(0x67, 0, 1 if kind == "call" else 0, 31, past)]


class LeanProgram(Program):
    """Units one after another, under a graph of version 3."""

    def __init__(self, version=1, calls=None):
        super().__init__(version, 3, calls)

    def begin_leaf(self):
        """A leaf range begins here; the next `end_leaf` ends it."""
        self.ranges.append((self.at, None))

    def end_leaf(self):
        self.ranges[-1] = self.ranges[-1][0], self.at

    def function(self, name, call=None, jump=None):
        """The lead of a function: what is named is its first address, its enter and the unit behind that."""
        self.label(name)
        for sort, label in ("callclass", call), ("jumpclass", jump):
            if label:
                self.listed(sort, label).append(self.at)
        if call or jump:
            self.plain(u_form(0x37, 0, jump) if jump else NOP)
        self.over_enter(name, call)

    def over_enter(self, name, call=None):
        """A jump over an enter, the enter, and before it the gate of a class of calls, where there is one."""
        self.label(name + " jump")
        self.jump(name + " body")
        if call:
            self.gate_word(call)
        self.label(name + " enter")
        self.enter()
        self.label(name + " body")

    def landing(self, name, jump):
        """A place to which jumps of a class may go."""
        self.label(name)
        self.listed("jumpclass", jump).append(self.at)
        self.gate_word(jump)

    def gate_word(self, label):
        """A gate that is put into no class by that."""
        self.plain(u_form(0x37, 0, label))

    def leaf(self, name):
        """A function begins that is a leaf."""
        self.label(name)
        self.begin_leaf()

    def enter(self):
        self.put(5, enter)

    def stores(self, rs1, imm, members):
        """Stores behind a mask: the short one where no immediate is given."""
        mask = short_mask(rs1) if imm is None else long_mask(rs1, imm)
        self.put(len(mask) + len(members), lambda at: mask + [s_form(funct3, 31, rs2, distance) for funct3, rs2, distance in members])

    def store(self, funct3, rs2, imm, rs1):
        self.stores(rs1, imm if imm < 0 else None, [(funct3, rs2, max(imm, 0))])

    def called(self, target):
        """Where a call of a function goes: to its enter, if it has one."""
        return self.labels.get("%s enter" % target, self.address(target))

    def call(self, target):
        self.put(1, lambda at: [jal(1, at, self.called(target))], lambda at: "call %08x %08x" % (at, self.called(target)))

    def built(self, entry, data=b""):
        return super().built(self.called(entry), data)

    def ijump(self, rs1, imm, label):
        self.put(15, lambda at: computed(at, rs1, imm, label, "jump"), lambda at: "site %08x jump %05x" % (at, label))

    def icall(self, rs1, imm, label):
        self.put(15, lambda at: computed(at, rs1, imm, label, "call"), lambda at: "site %08x call %05x" % (at, label))

    def leaf_returns(self):
        self.plain(LEAF_RETURN)
