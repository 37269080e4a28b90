"""Instructions, window points and the machine, stated a second time, by hand: what `rv_inst` and `rv_model` define.

`flip_sequences.py` runs programs by it. Only the instructions are here that the sequences of the `flip_` crates take.
"""

from collections import namedtuple

TEXT_BASE, DATA_BASE = 0x10000, 0x10000000
MASK = 2**64 - 1

# ---- instructions: their words, and the registers that they read and write
Form = namedtuple("Form", "name rd rs1 rs2 imm")
REGISTERS = {  # funct7, funct3, opcode
    "ADD": (0, 0, 0x33), "SUB": (32, 0, 0x33), "SLTU": (0, 3, 0x33), "XOR": (0, 4, 0x33), "OR": (0, 6, 0x33),
    "AND": (0, 7, 0x33), "MUL": (1, 0, 0x33), "ADDW": (0, 0, 0x3B), "SUBW": (32, 0, 0x3B), "MULW": (1, 0, 0x3B),
}  # fmt: skip
IMMEDIATES = {"ADDI": (0, 0x13), "XORI": (4, 0x13), "ORI": (6, 0x13), "ANDI": (7, 0x13), "ADDIW": (0, 0x1B)}
SHIFTS = {"SLLI": (0, 1), "SRLI": (0, 5), "SRAI": (16, 5)}
LOADS = {"LB": (0, 1), "LH": (1, 2), "LW": (2, 4), "LD": (3, 8), "LBU": (4, 1), "LHU": (5, 2), "LWU": (6, 4)}
STORES = {"SB": (0, 1), "SH": (1, 2), "SW": (2, 4), "SD": (3, 8)}
BRANCHES = {"BEQ": 0, "BNE": 1}


def form(name):
    """The constructor of an instruction, with its operands in the order of the instruction's `Form`."""
    if name in REGISTERS:
        return lambda rd, rs1, rs2: Form(name, rd, rs1, rs2, 0)
    if name in STORES or name in BRANCHES:
        return lambda rs1, rs2, imm: Form(name, 0, rs1, rs2, imm)
    if name in ("LUI", "JAL"):
        return lambda rd, imm: Form(name, rd, 0, 0, imm)
    return lambda rd, rs1, imm: Form(name, rd, rs1, 0, imm)


ADD, SUB, XOR, OR, AND, ADDW = map(form, "ADD SUB XOR OR AND ADDW".split())
ADDI, XORI, ADDIW, SLLI, SRLI = map(form, "ADDI XORI ADDIW SLLI SRLI".split())
LUI, JAL, JALR, BEQ, BNE, LD, SD, LHU, SB = map(form, "LUI JAL JALR BEQ BNE LD SD LHU SB".split())
ECALL = Form("ECALL", 0, 0, 0, 0)


def word(i):
    """The word of an instruction (RISC-V Unprivileged ISA, "RV32/64G Instruction Set Listings")."""
    rd, rs1, rs2, imm = i.rd << 7, i.rs1 << 15, i.rs2 << 20, i.imm
    if i.name in REGISTERS:
        funct7, funct3, opcode = REGISTERS[i.name]
        return funct7 << 25 | rs2 | rs1 | funct3 << 12 | rd | opcode
    if i.name in SHIFTS:
        top, funct3 = SHIFTS[i.name]
        return top << 26 | imm << 20 | rs1 | funct3 << 12 | rd | 0x13
    if i.name in STORES:
        return (imm >> 5 & 127) << 25 | rs2 | rs1 | STORES[i.name][0] << 12 | (imm & 31) << 7 | 0x23
    if i.name in BRANCHES:
        high, low = (imm >> 12 & 1) << 6 | imm >> 5 & 63, imm & 30 | imm >> 11 & 1
        return high << 25 | rs2 | rs1 | BRANCHES[i.name] << 12 | low << 7 | 0x63
    if i.name == "LUI":
        return imm << 12 | rd | 0x37
    if i.name == "JAL":
        parts = (imm >> 20 & 1) << 19 | (imm >> 1 & 1023) << 9 | (imm >> 11 & 1) << 8 | imm >> 12 & 255
        return parts << 12 | rd | 0x6F
    if i.name == "ECALL":
        return 0x73
    assert -2048 <= imm < 2048, i
    funct3, opcode = {**IMMEDIATES, "JALR": (0, 0x67), **{name: (row[0], 3) for name, row in LOADS.items()}}[i.name]
    return (imm & 0xFFF) << 20 | rs1 | funct3 << 12 | rd | opcode


def reads(i):
    """The registers that an instruction reads, but x0."""
    if i.name == "ECALL":
        return {10, 11, 12, 17}
    return {i.rs1, i.rs2} - {0}


def writes(i):
    """The registers that it writes, but x0."""
    return {10} if i.name == "ECALL" else {i.rd} - {0}


# ---- window points
def checks(i, r):
    return i.name in BRANCHES and i.imm != 4 and r in (i.rs1, i.rs2) and i.rs1 != i.rs2 and 0 not in (i.rs1, i.rs2)


def is_source(i):
    return i.name in ("LUI", "JAL", "ECALL") or i.name == "ADDI" and i.rs1 == 0 or i.name in LOADS


def begins(i, r):
    return is_source(i) and r in writes(i) or checks(i, r)


def may_use(first, i, r):
    copied = i.name == "ADDI" and i.rs1 == r and i.imm == 0 and first.name in LOADS
    return i.name in LOADS or i.name in STORES or i.name in ("JALR", "ECALL") or i.name in BRANCHES and not checks(i, r) or copied


def has_window(first, i, r):
    calls = i.name == "ECALL"
    return r in (1, 2, 5, 6, 7, 28, 29, 30, 31) or r == 10 and (calls or first.name == "ECALL") or r in (11, 12, 17) and calls


def quiet_next(code, k):
    """The index of the word that the path goes on to that no fault leaves."""
    return k + code[k].imm // 4 if code[k].name in ("BEQ", "JAL") else k + 1


def window_points(code):
    """The window points of a text, as pairs of a word's index and a register."""
    points = set()
    for k, first in enumerate(code):
        for r in filter(lambda r: begins(first, r), range(1, 32)):
            way, j = [], quiet_next(code, k)
            while len(way) < 31 and 0 <= j < len(code):
                i = code[j]
                way.append(j)
                if r in reads(i) and may_use(first, i, r) and has_window(first, i, r):
                    points.update((m, r) for m in way)
                if r in writes(i) or i.name == "JALR" or r in reads(i) and not may_use(first, i, r):
                    break
                j = quiet_next(code, j)
    return points


# ---- the machine
def signed(x, bits=64):
    x &= 2**bits - 1
    return x - 2**bits if x >> bits - 1 else x


def word_of(x):
    """A result of 32 bits, extended by its sign."""
    return signed(x, 32) & MASK


COMPUTE = {
    "ADD": lambda a, b: a + b, "SUB": lambda a, b: a - b, "SLTU": lambda a, b: int(a < b), "XOR": lambda a, b: a ^ b,
    "OR": lambda a, b: a | b, "AND": lambda a, b: a & b, "MUL": lambda a, b: a * b, "ADDW": lambda a, b: word_of(a + b),
    "SUBW": lambda a, b: word_of(a - b), "MULW": lambda a, b: word_of(a * b), "ADDI": lambda a, b: a + b,
    "XORI": lambda a, b: a ^ b, "ORI": lambda a, b: a | b, "ANDI": lambda a, b: a & b, "ADDIW": lambda a, b: word_of(a + b),
    "SLLI": lambda a, b: a << b, "SRLI": lambda a, b: a >> b, "SRAI": lambda a, b: signed(a) >> b,
}  # fmt: skip


class Machine:
    """A state of the machine; `end` says how the run ended."""

    def __init__(self, code, size, given):
        self.code, self.regs, self.at = code, [0] * 32, 0
        self.data, self.given, self.out, self.end = bytearray(size), given, b"", None

    def copy(self):
        other = Machine.__new__(Machine)
        other.code, other.regs, other.at = self.code, self.regs[:], self.at
        other.data, other.given, other.out, other.end = self.data[:], self.given, self.out, self.end
        return other

    def place(self, address, size):
        """Where the bytes at an address lie in the data; else the run ends by a trap."""
        start = (address & MASK) - DATA_BASE
        if not 0 <= start <= len(self.data) - size:
            self.end = "trap"
            return None
        return start

    def call(self):
        a, address, count, number = (self.regs[r] for r in (10, 11, 12, 17))
        if number == 93:
            self.end = f"ended status={a % 256}"
        elif number in (63, 64) and a == (number == 64) and (start := self.place(address, count)) is not None:
            taken = self.given[:count]
            if number == 63:
                self.data[start : start + len(taken)] = taken
                self.given, self.regs[10] = self.given[count:], len(taken)
            else:
                self.out, self.regs[10] = self.out + bytes(self.data[start : start + count]), count
        else:
            self.end = "trap"

    def step(self):
        if not 0 <= self.at < len(self.code):
            self.end = "trap"
            return
        i, regs, after = self.code[self.at], self.regs, self.at + 1
        a, b = regs[i.rs1], regs[i.rs2]
        if i.name in COMPUTE:
            regs[i.rd] = COMPUTE[i.name](a, b if i.name in REGISTERS else i.imm & MASK) & MASK
        elif i.name in LOADS:
            start = self.place(a + i.imm, LOADS[i.name][1])
            if start is not None:
                number = int.from_bytes(self.data[start : start + LOADS[i.name][1]], "little")
                regs[i.rd] = number if i.name.endswith("U") else signed(number, 8 * LOADS[i.name][1]) & MASK
        elif i.name in STORES:
            size = STORES[i.name][1]
            if (start := self.place(a + i.imm, size)) is not None:
                self.data[start : start + size] = (b % 256**size).to_bytes(size, "little")
        elif i.name in BRANCHES:
            after = self.at + i.imm // 4 if (a == b) == (i.name == "BEQ") else after
        elif i.name == "LUI":
            regs[i.rd] = word_of(i.imm << 12)
        elif i.name in ("JAL", "JALR"):
            goal = TEXT_BASE + 4 * self.at + i.imm if i.name == "JAL" else (a + i.imm & MASK) // 2 * 2
            regs[i.rd], after = TEXT_BASE + 4 * (self.at + 1), (goal - TEXT_BASE) // 4 if goal % 4 == 0 else -1
        else:
            self.call()
        regs[0] = 0
        self.at = after

    def run(self, steps):
        while self.end is None and steps:
            self.step()
            steps -= 1
        return self.out, self.end or "steps over"
