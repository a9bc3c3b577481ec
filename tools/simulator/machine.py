"""The machine of docs/MACHINE.md with one or several harts, written from the RISC-V manual and that page alone.

A step answers None where the run goes on, and else how it stops: ("exit", status), ("break", pc), ("load", pc, address),
("store", pc, address), ("fetch", pc) or ("illegal", pc).
"""

ALL = 2**64 - 1
DATA_END, DATA = 0x10001000, 0x10000
CODE, CODE_SIZE = 0x40000000, 0x100000
HANDLERS = {CODE: "__cfi_bad_target", CODE + 4: "__cfi_bad_return", CODE + 8: "__cfi_deep"}
CODE_TAIL = 8  # how many bytes past code loads may read
SHADOW, SHADOW_SIZE = 0x60000000, {1: 0x10000, 2: 0x80000}
START = 0x4000000C
WINDOW = 2**28  # where the bytes of a system call end at most


class Fault(Exception):
    """A load or a store outside of the regions that allow it."""


def signed(value, bits=64):
    value &= (1 << bits) - 1
    return value - (value >> bits - 1 << bits)


def field(word, low, count, to=0):
    return (word >> low & (1 << count) - 1) << to


def quotient(a, b):
    """Rounded towards 0."""
    return abs(a) // abs(b) * (1 if (a < 0) == (b < 0) else -1)


def divided(a, b, bits, wanted):
    """A quotient ("div") or a remainder ("rem"), of numbers that stand for themselves."""
    if b == 0:
        return -1 if wanted == "div" else a
    return quotient(a, b) if wanted == "div" else a - quotient(a, b) * b


BRANCHES = {
    0: lambda a, b: a == b, 1: lambda a, b: a != b, 4: lambda a, b: signed(a) < signed(b), 5: lambda a, b: signed(a) >= signed(b),
    6: lambda a, b: a < b, 7: lambda a, b: a >= b,
}
# results by funct3, of numbers of 64 bits and modulo 2^64
IMMEDIATE = {
    0: lambda a, b: a + b, 2: lambda a, b: signed(a) < signed(b), 3: lambda a, b: a < b, 4: lambda a, b: a ^ b,
    6: lambda a, b: a | b, 7: lambda a, b: a & b,
}
REGISTER = {
    **{(0, funct3): act for funct3, act in IMMEDIATE.items()},
    (0, 1): lambda a, b: a << (b & 63), (0, 5): lambda a, b: a >> (b & 63),
    (32, 0): lambda a, b: a - b, (32, 5): lambda a, b: signed(a) >> (b & 63),
    (1, 0): lambda a, b: a * b, (1, 1): lambda a, b: signed(a) * signed(b) >> 64, (1, 2): lambda a, b: signed(a) * b >> 64,
    (1, 3): lambda a, b: a * b >> 64,
    (1, 4): lambda a, b: divided(signed(a), signed(b), 64, "div"), (1, 5): lambda a, b: divided(a, b, 64, "div"),
    (1, 6): lambda a, b: divided(signed(a), signed(b), 64, "rem"), (1, 7): lambda a, b: divided(a, b, 64, "rem"),
}
# the same of the low 32 bits; the result is sign-extended from 32 bits
LOW = 2**32 - 1
WORD = {
    (0, 0): lambda a, b: a + b, (0, 1): lambda a, b: a << (b & 31), (0, 5): lambda a, b: (a & LOW) >> (b & 31),
    (32, 0): lambda a, b: a - b, (32, 5): lambda a, b: signed(a, 32) >> (b & 31), (1, 0): lambda a, b: a * b,
    (1, 4): lambda a, b: divided(signed(a, 32), signed(b, 32), 32, "div"), (1, 5): lambda a, b: divided(a & LOW, b & LOW, 32, "div"),
    (1, 6): lambda a, b: divided(signed(a, 32), signed(b, 32), 32, "rem"), (1, 7): lambda a, b: divided(a & LOW, b & LOW, 32, "rem"),
}


class Machine:
    def __init__(self, version, code, data, given, harts):
        self.shadow_size = SHADOW_SIZE[version]
        self.bytes = {CODE + k: byte for k, byte in enumerate(code)} | {DATA + k: byte for k, byte in enumerate(data)}
        self.left, self.output = given, b""
        self.pcs = [START] * harts
        self.registers = [[0] * 10 + [hart] + [0] * 21 for hart in range(harts)]

    def lies(self, start, size, address, count):
        return start <= address and address + count <= start + size

    def read(self, address, count):
        return sum(self.bytes.get(address + k, 0) << 8 * k for k in range(count))

    def write(self, address, count, value):
        for k in range(count):
            self.bytes[address + k] = value >> 8 * k & 255

    def load(self, address, count):
        regions = (0, DATA_END), (CODE, CODE_SIZE + CODE_TAIL), (SHADOW, self.shadow_size)
        if not any(self.lies(start, size, address, count) for start, size in regions):
            raise Fault
        return self.read(address, count)

    def store(self, address, count, value):
        if not any(self.lies(start, size, address, count) for start, size in ((0, DATA_END), (SHADOW, self.shadow_size))):
            raise Fault
        self.write(address, count, value)

    def step(self, hart):
        pc, x = self.pcs[hart], self.registers[hart]
        if pc % 4 or not CODE <= pc < CODE + CODE_SIZE:
            return "fetch", pc
        word = self.read(pc, 4)
        opcode, rd, funct3 = word & 127, word >> 7 & 31, word >> 12 & 7
        a, b = x[word >> 15 & 31], x[word >> 20 & 31]
        top, imm = word >> 25, signed(word >> 20, 12)
        after, result = pc + 4, None
        if opcode in (0x37, 0x17):
            result = signed(word & 0xFFFFF000, 32) + (pc if opcode == 0x17 else 0)
        elif opcode == 0x6F:
            offset = field(word, 31, 1, 20) | field(word, 12, 8, 12) | field(word, 20, 1, 11) | field(word, 21, 10, 1)
            result, after = pc + 4, pc + signed(offset, 21)
        elif opcode == 0x67 and funct3 == 0:
            result, after = pc + 4, a + imm & ~1
        elif opcode == 0x63 and funct3 in BRANCHES:
            offset = field(word, 31, 1, 12) | field(word, 7, 1, 11) | field(word, 25, 6, 5) | field(word, 8, 4, 1)
            after = pc + signed(offset, 13) if BRANCHES[funct3](a, b) else after
        elif opcode == 0x03 and funct3 != 7:
            count, address = 1 << (funct3 & 3), a + imm & ALL
            try:
                value = self.load(address, count)
            except Fault:
                return "load", pc, address
            result = value if funct3 > 3 else signed(value, 8 * count)
        elif opcode == 0x23 and funct3 < 4:
            address = a + signed(top << 5 | rd, 12) & ALL
            try:
                self.store(address, 1 << funct3, b)
            except Fault:
                return "store", pc, address
        elif opcode == 0x13 and funct3 in IMMEDIATE:
            result = IMMEDIATE[funct3](a, imm & ALL)
        elif opcode == 0x13 and (funct3, word >> 26) in ((1, 0), (5, 0), (5, 16)):
            result = REGISTER[32 if word >> 26 else 0, funct3](a, word >> 20 & 63)
        elif opcode == 0x1B and funct3 == 0:
            result = signed(a + imm, 32)
        elif opcode == 0x1B and (top, funct3) in ((0, 1), (0, 5), (32, 5)):
            result = signed(WORD[top, funct3](a, word >> 20 & 31), 32)
        elif opcode == 0x33 and (top, funct3) in REGISTER:
            result = REGISTER[top, funct3](a, b)
        elif opcode == 0x3B and (top, funct3) in WORD:
            result = signed(WORD[top, funct3](a, b), 32)
        elif opcode == 0x0F and funct3 == 0:
            pass
        elif word == 0x00000073:
            stop = self.system_call(x)
            if stop:
                return stop
        elif word == 0x00100073:
            return "break", pc
        else:
            return "illegal", pc
        if result is not None and rd:
            x[rd] = int(result) & ALL
        self.pcs[hart] = after & ALL
        return None

    def system_call(self, x):
        number, descriptor, address, count = x[17], x[10], x[11], x[12]
        if number in (93, 94):
            return "exit", descriptor % 256
        if number not in (63, 64):
            answer = -38
        elif descriptor not in ((0,) if number == 63 else (1, 2)):
            answer = -9
        elif address + count > WINDOW:
            answer = -14
        elif number == 64:
            self.output += bytes(self.bytes.get(address + k, 0) for k in range(count))
            answer = count
        else:
            taken, self.left = self.left[:count], self.left[count:]
            for k, byte in enumerate(taken):
                self.bytes[address + k] = byte
            answer = len(taken)
        x[10] = answer & ALL
        return None
