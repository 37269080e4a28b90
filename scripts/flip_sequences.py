#!/usr/bin/env python3
"""Flips bits in small programs, each of which runs one kind of the sequences that the `flip_` crates have laws of.

usage: scripts/flip_sequences.py [ROUNDS [SEED]] [--all] [KIND..]

The words of each sequence, what a window point is and what the machine does are stated here a second time, by hand. A
program is made for each kind and round, at random registers, slots, offsets and values. It is run without a flip, and
then with bit 0, 1, 31, 62 or 63 of each register that it names, and of one that it doesn't, flipped just before each
instruction, wherever that isn't a window point: the output and the status have to be the same. All these flips are run in
the machine that is stated here; of them SAMPLE a program, or with --all every one, by `swiftr flip`, a process each.

It first checks that the words of two example texts come out as `flip_text_examples` and `flip_flow_examples` have them, and
that harm is found where a vote serves one word too many.
"""

import concurrent.futures
import random
import re
import struct
import subprocess
import sys
import tempfile
from collections import namedtuple
from pathlib import Path

from second_machine import ADD, ADDI, ADDIW, AND, BEQ, BNE, DATA_BASE, ECALL, JAL, JALR, LD, LHU, LUI, OR, SB, SD, SLLI
from second_machine import SRLI, SUB, TEXT_BASE, XOR, XORI, Machine, form, reads, signed, window_points, word, writes

TOP = Path(__file__).resolve().parent.parent
BITS = (0, 1, 31, 62, 63)
SAMPLE, STEPS, JOBS = 300, 20000, 2

# ---- the words of sequences, as the crates' specs have them
Part = namedtuple("Part", "kind imm")  # Upper, Small, Plus, PlusWord, Shifted
Slot = namedtuple("Slot", "n")
Register = namedtuple("Register", "r")
Constant = namedtuple("Constant", "parts")
VOTE = [BEQ(2, 3, 8), ADDI(2, 4, 0)]


def part_words(d, parts):
    make = {"Upper": LUI, "Small": lambda d, n: ADDI(d, 0, n), "Plus": lambda d, n: ADDI(d, d, n)}
    more = {"PlusWord": lambda d, n: ADDIW(d, d, n), "Shifted": lambda d, n: SLLI(d, d, n)}
    return [{**make, **more}[part.kind](d, part.imm) for part in parts]


def far_parts(n):
    high = (8 * n + 2048) // 4096
    return high, 8 * n - 4096 * high


def far_address(high):
    return [LUI(28, high), ADD(28, 28, 2), LUI(29, high), ADD(29, 29, 3), BEQ(28, 29, 12), LUI(28, high), ADD(28, 28, 4)]


def any_load(r, n):
    high, low = far_parts(n)
    return VOTE + [LD(r, 2, 8 * n)] if n < 256 else far_address(high) + [LD(r, 28, low)]


def any_store(r, n):
    high, low = far_parts(n)
    return VOTE + [SD(2, r, 8 * n)] if n < 256 else far_address(high) + [SD(28, r, low)]


def bring(d, source):
    if isinstance(source, Slot):
        return any_load(d, source.n)
    return [ADDI(d, source.r, 0)] if isinstance(source, Register) else part_words(d, source.parts)


def in_slots(x):
    return tuple(map(Slot, x))


def constant(parts):
    return (Constant(parts),) * 3


def check_words(d, b, t):
    return [BEQ(d, b, 8), ADDI(d, t, 0)]


def bring_three(a, b, t, x):
    return bring(t, x[2]) + bring(b, x[1]) + bring(a, x[0])


def fetch_operand(x):
    return bring_three(5, 6, 7, x) + check_words(5, 6, 7)


def fetch_both(x, y):
    return bring_three(5, 6, 7, x) + bring_three(28, 30, 31, y) + check_words(5, 6, 7) + check_words(28, 30, 31)


def fetch_words(d, a, b, t):
    return [ADDI(d, a, 0), BEQ(d, b, 8), ADDI(d, t, 0)]


def fetch_slots(x):
    return VOTE + [LD(5, 2, 8 * x[0]), LD(6, 2, 8 * x[1]), LD(7, 2, 8 * x[2]), BEQ(5, 6, 8), ADDI(5, 7, 0)]


def guarded_constant(d, b, parts):
    made = part_words(d, parts)
    return made + part_words(b, parts) + [BEQ(d, b, 4 * len(made) + 4)] + made


def two_operands(code, x, y, d):
    return [i for v in range(3) for i in bring(5, x[v]) + bring(6, y[v]) + code + any_store(5, d[v])]


def one_operand(code, x, d):
    return [i for v in range(3) for i in bring(5, x[v]) + code + any_store(5, d[v])]


def is_near_slot(source):
    return isinstance(source, Slot) and source.n < 256


def early(r, source):
    return [] if is_near_slot(source) else bring(r, source)


def late(r, source):
    return [LD(r, 2, 8 * source.n)] if is_near_slot(source) else []


def two_voted(code, x, y, d):
    words = []
    for v in range(3):
        loads = VOTE + late(5, x[v]) + late(6, y[v])
        near = early(5, x[v]) + early(6, y[v]) + loads + code + [SD(2, 5, 8 * d[v])]
        words += near if d[v] < 256 else bring(5, x[v]) + bring(6, y[v]) + code + any_store(5, d[v])
    return words


def one_voted(code, x, d):
    words = []
    for v in range(3):
        near = early(5, x[v]) + VOTE + late(5, x[v]) + code + [SD(2, 5, 8 * d[v])]
        words += near if d[v] < 256 else bring(5, x[v]) + code + any_store(5, d[v])
    return words


def access_words(loads, code, stores):
    return VOTE + [LD(r, 2, 8 * n) for r, n in loads] + code + [SD(2, r, 8 * n) for r, n in stores]


def select_words(m, x, y, d):
    code = [AND(6, 6, 5), XORI(5, 5, -1), AND(7, 7, 5), OR(5, 6, 7)]
    return [i for v in range(3) for i in any_load(5, m[v]) + any_load(6, x[v]) + any_load(7, y[v]) + code + any_store(5, d[v])]


CELL = 65536


def put_words(x):
    tail = [LUI(6, CELL), SB(6, 5, 0), ADDI(10, 0, 1), LUI(11, CELL), ADDI(12, 0, 1), ADDI(17, 0, 64), ECALL]
    return fetch_operand(x) + tail


def get_words(d):
    call = [ADDI(10, 0, 0), LUI(11, CELL), ADDI(12, 0, 1), ADDI(17, 0, 63), ECALL]
    read = [ADDI(7, 0, 255), LUI(6, CELL), SB(6, 7, 0)] + call + [LUI(6, CELL), SB(6, 10, 1)]
    return read + [i for v in range(3) for i in [LUI(28, CELL), LHU(5, 28, 0), ADDI(5, 5, -256)] + any_store(5, d[v])]


def end_words(x):
    return bring_three(10, 6, 7, x) + check_words(10, 6, 7) + [ADDI(17, 0, 93), ECALL]


def test_words(x, offset):
    return fetch_operand(x) + [BNE(5, 0, offset)]


def branch_words(x, zero, other):
    return test_words(x, 8) + [JAL(0, zero), JAL(0, other)]


def case_words(x, taking, hit):
    taken = [i for d in (7, 6, 5) for i in ([ADDI(d, d, taking)] if isinstance(taking, int) else part_words(28, taking) + [SUB(d, d, 28)])]
    return bring_three(5, 6, 7, x) + taken + check_words(5, 6, 7) + [BNE(5, 0, 8), JAL(0, hit)]


def copies_words(copies):
    return [i for source, goal in copies for i in one_operand([], source, goal)]


def edge_words(phis):
    return copies_words([(x, cell) for x, cell, place in phis]) + copies_words([(in_slots(cell), place) for x, cell, place in phis])


def load_at(size, d, a):
    return form({1: "LB", 2: "LH", 4: "LW", 8: "LD"}[size])(d, a, 0)


def store_at(size, a, r):
    return form({1: "SB", 2: "SH", 4: "SW", 8: "SD"}[size])(a, r, 0)


def three_loads(size, d):
    return [load_at(size, r, 5) for r in (6, 7, 30)] + any_store(6, d[0]) + any_store(7, d[1]) + any_store(30, d[2])


def load_words(size, y, d):
    return fetch_operand(y) + three_loads(size, d)


def store_words(size, x, y):
    return fetch_both(x, y) + [store_at(size, 28, 5)]


def moved(d, n, up):
    high, low = far_parts(n)
    far = [LUI(5, high), ADDI(5, 5, low), (ADD if up else SUB)(d, d, 5)]
    return [ADDI(d, d, 8 * n if up else -8 * n)] if n < 256 else far


def frame_moved(n, up):
    return [i for d in (2, 3, 4) for i in moved(d, n, up)]


def call_words(n, args, offset):
    return frame_moved(n, False) + copies_words(args) + [JAL(1, offset)]


def after_words(results, n):
    return copies_words(results) + frame_moved(n, True)


def entry_words(m):
    return any_store(1, m)


def return_words(m):
    return any_load(1, m) + [JALR(0, 1, 0)]


def start_code(parts):
    return [i for d in (2, 3, 4) for i in part_words(d, parts)]


# ---- the words of two examples
def slots_from(n):
    return (n, n + 1, n + 2)


def example_text():
    frame, block = [Part("Upper", CELL), Part("Plus", 32)], [Part("Upper", CELL), Part("Plus", 16)]
    letter = [Part("Small", 4), Part("Shifted", 4), Part("PlusWord", 1)]
    mask, loaded, read, chosen = slots_from(0), slots_from(3), slots_from(6), (9, 10, 300)
    middle = store_words(4, constant(letter), constant(block)) + load_words(1, constant(block), loaded) + put_words(in_slots(loaded))
    middle += get_words(read) + one_operand([], constant([Part("Small", -1)]), mask) + select_words(mask, loaded, read, chosen)
    return start_code(frame) + middle + end_words(in_slots(chosen))


def example_countdown():
    counter, summed, lessened, added = map(slots_from, (0, 3, 6, 9))
    code = start_code([Part("Upper", 65537)]) + copies_words([(constant([Part("Small", 3)]), counter), (constant([Part("Small", 0)]), summed)])
    code += two_operands([ADD(5, 5, 6)], in_slots(summed), in_slots(counter), added)
    code += call_words(8, [(in_slots(slots_from(8)), slots_from(4))], 488) + after_words([(in_slots(slots_from(1)), slots_from(14))], 8)
    code += branch_words(in_slots(lessened), 300, 4)
    code += edge_words([(in_slots(lessened), slots_from(12), counter), (in_slots(added), slots_from(15), summed)]) + [JAL(0, -636)]
    code += end_words(in_slots(added)) + entry_words(0)
    four = in_slots(slots_from(4))
    return code + two_operands([ADDI(5, 5, -1)], four, four, slots_from(1)) + return_words(0)


def check_examples():
    """The words of the examples are those that the crates have."""
    for path, name, code in (
        ("flip_text_examples/specs/Text.antt", "text_words", example_text()),
        ("flip_flow_examples/specs/Countdown.antt", "countdown_words", example_countdown()),
    ):
        text = (TOP / "crates" / path).read_text()
        listed = text[text.index(f"\n{name} =") :].split("[]")[0]
        wanted = [int(found, 16) for found in re.findall(r"0x[0-9a-f]{8}", listed)]
        if [word(i) for i in code] != wanted:
            sys.exit(f"{path}: its words are others than those that are stated here")


def check_window_points():
    """The window points of `examples/seven.ll` are those that docs/COMMANDS.md has."""
    if window_points([ADDI(10, 0, 7), ADDI(17, 0, 93), ECALL]) != {(1, 10), (2, 10), (2, 17)}:
        sys.exit("the window points of examples/seven.ll are others")


# ---- programs
FOLD = [i for n in (32, 16, 8) for i in (SRLI(6, 5, n), XOR(5, 5, 6))]


class Program:
    """A program of one kind: its words, its input, and the size of its data. Slots and places are taken from those that are free."""

    def __init__(self, rng):
        self.rng, self.given = rng, b""
        self.base = rng.choice((rng.randrange(700, 720), 3000))
        self.code = start_code(self.number(DATA_BASE + 8 * self.base))
        self.free = list(range(250))
        self.far_free = list(range(256, 2000))
        # Not the registers that calls of the environment take.
        self.free_places = [r for r in range(8, 28) if r not in (10, 11, 12, 17)]
        for slots in (self.free, self.far_free, self.free_places):
            rng.shuffle(slots)
        self.size = 8 * (self.base + 2000)

    def number(self, n):
        """The words that make a number of 31 bits."""
        low = signed(n, 12)
        return [Part("Upper", (n - low) >> 12 & 0xFFFFF)] + ([Part("PlusWord", low)] if low else [])

    def parts(self):
        """A random constant."""
        some = [Part("Small", self.rng.randrange(-2048, 2048))] if self.rng.random() < 0.5 else self.number(self.rng.randrange(2**31 - 4096))
        for _ in range(self.rng.randrange(3)):
            some += [Part("Shifted", self.rng.randrange(1, 20)), Part("Plus", self.rng.randrange(-2048, 2048))]
        return some

    def near(self):
        return tuple(self.free.pop() for _ in range(3))

    def far(self):
        return tuple(self.far_free.pop() for _ in range(3))

    def any(self):
        return self.far() if self.rng.random() < 0.3 else self.near()

    def value(self, slots, parts=None):
        """Slots that a random value has gone to."""
        self.code += one_operand([], constant(parts or self.parts()), slots)
        return slots

    def places(self):
        """Registers that are places, with a random value; a constant where none are left."""
        parts = self.parts()
        if len(self.free_places) < 3:
            return constant(parts)
        regs = [self.free_places.pop() for _ in range(3)]
        self.code += [i for r in regs for i in part_words(r, parts)]
        return tuple(map(Register, regs))

    def operand(self):
        kind = self.rng.randrange(4)
        if kind == 0:
            return constant(self.parts())
        return self.places() if kind == 1 else in_slots(self.value(self.any()))

    def observe(self, slots):
        """The program puts out a byte to which each bit of the value counts, and ends with it."""
        folded = self.near()
        self.code += one_operand(FOLD, in_slots(slots), folded)
        self.code += put_words(in_slots(folded)) + end_words(in_slots(folded))


def pure_code(rng):
    names = ("ADD", "SUB", "XOR", "MUL", "ADDW", "SUBW", "AND", "OR", "SLTU", "MULW")
    return [form(rng.choice(names))(5, 5, 6) for _ in range(rng.randrange(1, 5))]


def near_slots(p):
    x, d = p.value(p.near()), p.near()
    p.code += one_operand([], in_slots(x), d)
    p.observe(d)


def far_slots(p):
    x, d = p.value(p.far()), p.far()
    p.code += one_operand([], in_slots(x), d)
    p.observe(d)


def constants(p):
    p.observe(p.value(p.any()))


def operations(p):
    x, y, d = p.operand(), p.operand(), p.any()
    p.code += two_operands(pure_code(p.rng), x, y, d)
    p.observe(d)


def voted_operations(p):
    x, y, d, e = p.operand(), p.operand(), p.any(), p.near()
    p.code += two_voted(pure_code(p.rng), x, y, d) + one_voted([ADDI(5, 5, 7)], in_slots(d), e)
    p.observe(e)


def voted_accesses(p):
    """Three versions, each of three loads and two stores by one vote, with as many words as the vote may serve."""
    x, y, z, d, e = p.value(p.near()), p.value(p.near()), p.value(p.near()), p.near(), p.near()
    code = (pure_code(p.rng) * 26)[: 31 - 3 - 2 - 2] + [ADD(5, 5, 7), XOR(6, 6, 5)]
    for v in range(3):
        p.code += access_words([(5, x[v]), (6, y[v]), (7, z[v])], code, [(5, d[v]), (6, e[v])])
    f = p.near()
    p.code += two_operands([ADD(5, 5, 6)], in_slots(d), in_slots(e), f)
    p.observe(f)


def selects(p):
    mask = p.value(p.any(), [Part("Small", p.rng.choice((0, -1)))])
    x, y, d = p.value(p.any()), p.value(p.any()), p.any()
    p.code += select_words(mask, x, y, d)
    p.observe(d)


def block_at(p):
    """The parts of the address of a block below the frame, with a value in it."""
    address = p.number(DATA_BASE + 16 + 8 * p.rng.randrange(80))
    p.code += store_words(8, p.operand(), constant(address))
    return address


def fetches_from_registers(p):
    address, d = block_at(p), p.near()
    a, b, t = (28, 30, 31) if p.rng.random() < 0.5 else (6, 7, 29)
    p.code += bring_three(a, b, t, constant(address)) + fetch_words(5, a, b, t) + three_loads(8, d)
    p.observe(d)


def fetches_from_slots(p):
    address = block_at(p)
    x, d = p.value(p.near(), address), p.near()
    p.code += fetch_slots(x) + three_loads(8, d)
    p.observe(d)


def guarded_constants(p):
    address, d = block_at(p), p.near()
    p.code += guarded_constant(5, 6, address) + three_loads(8, d)
    p.observe(d)


def blocks(p):
    size, other = p.rng.choice((1, 2, 4, 8)), p.rng.choice((1, 2, 4, 8))
    address, d = p.number(DATA_BASE + 16 + 8 * p.rng.randrange(80)), p.any()
    y = p.rng.choice((constant(address), in_slots(p.value(p.any(), address))))
    p.code += store_words(size, p.operand(), y) + load_words(other, y, d)
    p.observe(d)


def output(p):
    p.code += put_words(p.operand()) + put_words(p.operand())
    p.observe(p.value(p.near()))


def reads_input(p):
    p.given = bytes(p.rng.randrange(256) for _ in range(p.rng.randrange(3)))
    d, e, f = p.any(), p.any(), p.near()
    p.code += get_words(d) + get_words(e) + two_operands([SLLI(5, 5, 9), XOR(5, 5, 6)], in_slots(d), in_slots(e), f)
    p.observe(f)


def ends(p):
    p.code += end_words(p.operand())


def branches(p):
    x = p.rng.choice((lambda: constant([Part("Small", 0)]), p.operand))()
    first = put_words(constant([Part("Small", 65)]))
    second = put_words(constant([Part("Small", 66)]))
    p.code += branch_words(x, 8, 4 + 4 * len(first) + 4) + first + [JAL(0, 4 + 4 * len(second))] + second
    p.observe(p.value(p.near()))


def switches(p):
    number = p.rng.randrange(3)
    x = in_slots(p.value(p.any(), [Part("Small", number)]))
    goals = [put_words(constant([Part("Small", 65 + k)])) for k in range(3)]
    takings = [0, -1] if p.rng.random() < 0.5 else [[Part("Small", 0)], [Part("Small", 1)]]
    sizes = [len(case_words(x, taking, 0)) for taking in takings]
    length = len(goals[0]) + 1
    # The jump of a case goes over the cases after it, the last jump, and the goals before its own.
    p.code += case_words(x, takings[0], 4 * (1 + sizes[1] + 1)) + case_words(x, takings[1], 4 * (1 + 1 + length)) + [JAL(0, 4 * (1 + 2 * length))]
    for k, goal in enumerate(goals):
        p.code += goal + [JAL(0, 4 + 4 * length * (2 - k))]
    p.observe(p.value(p.near()))


def copies(p):
    pairs = [(p.operand(), p.any()) for _ in range(3)]
    d = p.near()
    p.code += copies_words(pairs)
    p.code += two_operands([SUB(5, 5, 6)], in_slots(pairs[0][1]), in_slots(pairs[2][1]), d)
    p.observe(d)


def edges(p):
    """Two phis that swap."""
    a, b, d = p.value(p.any()), p.value(p.any()), p.near()
    p.code += edge_words([(in_slots(b), p.any(), a), (in_slots(a), p.any(), b)])
    p.code += two_operands([SLLI(6, 6, 3), SUB(5, 5, 6)], in_slots(a), in_slots(b), d)
    p.observe(d)


def calls(p):
    """A function that takes a value, and returns what it computes of it."""
    n = p.rng.choice((8, 40, 300))
    x, d, link = p.value(p.near()), p.near(), p.rng.randrange(7, n if n < 256 else 200)
    args = [(in_slots(tuple(n + k for k in x)), (3, 4, 5))]
    results = [(in_slots((0, 1, 2)), tuple(n + k for k in d))]
    body = entry_words(link) + two_operands(pure_code(p.rng), in_slots((3, 4, 5)), constant(p.parts()), (0, 1, 2)) + return_words(link)
    jump = len(p.code) + len(call_words(n, args, 0)) - 1
    p.code += call_words(n, args, 0) + after_words(results, n)
    p.observe(d)
    p.code[jump] = JAL(1, 4 * (len(p.code) - jump))
    p.code += body


KINDS = [
    near_slots, far_slots, constants, operations, voted_operations, voted_accesses, selects, fetches_from_registers,
    fetches_from_slots, guarded_constants, blocks, output, reads_input, ends, branches, switches, copies, edges, calls,
]  # fmt: skip


# ---- runs
def executable(path, code, size):
    """Writes a program of two segments: the text, and data of 0."""
    text = b"".join(struct.pack("<I", word(i)) for i in code)
    header = b"\x7fELF\x02\x01\x01" + bytes(9) + struct.pack("<HHIQQQIHHHHHH", 2, 243, 1, TEXT_BASE, 64, 0, 0, 64, 56, 2, 0, 0, 0)
    rows = ((5, 4096, TEXT_BASE, len(text), len(text)), (6, 4096, DATA_BASE, 0, size))
    table = b"".join(struct.pack("<IIQQQQQQ", 1, flags, at, base, base, filed, held, 4096) for flags, at, base, filed, held in rows)
    path.write_bytes((header + table).ljust(4096, b"\0") + text)


def swiftr_program():
    """The program that was built here, or the one in dist/."""
    built, released = TOP / "crates/swiftr_cli/out/swiftr_cli", TOP / "dist/swiftr-linux-x86_64"
    return built if built.exists() else released


def by_swiftr(words):
    """The output and the ending that a process tells, without its number of steps."""
    told = subprocess.run(words, capture_output=True).stdout
    found = re.search(rb"(ended status=\d+|trap|steps over|refused)[^\n]*\n$", told)
    return (told[: found.start()], found.group(1).decode()) if found else (told, "?")


def states_of(program):
    """The state before each instruction of the run without a flip, and how it ends."""
    machine, states = Machine(program.code, program.size, program.given), []
    while machine.end is None and len(states) < STEPS:
        states.append(machine.copy())
        machine.step()
    return states, (machine.out, machine.end)


def flips_of(program, states):
    """All flips outside the window points: the number of an instruction, a register and a bit."""
    named = {r for i in program.code for r in reads(i) | writes(i)}
    regs = sorted(named) + [r for r in range(1, 32) if r not in named][:1]
    points = window_points(program.code)
    return [(n, r, bit) for n, state in enumerate(states) for r in regs if (state.at, r) not in points for bit in BITS]


def flipped(state, r, bit, steps):
    """How the run goes on from a state with a bit flipped."""
    machine = state.copy()
    machine.regs[r] ^= 1 << bit
    return machine.run(steps)


def check_harm_is_found():
    """A vote that serves 32 words leaves flips of x2 that do harm and aren't at window points."""
    p = Program(random.Random(1))
    x, d = p.value(p.near()), p.near()
    p.code += [i for v in range(3) for i in access_words([(5, x[v])], [ADDI(5, 5, 0)] * 30, [(5, d[v])])]
    p.observe(d)
    states, wanted = states_of(p)
    harmful = {r for n, r, bit in flips_of(p, states) if flipped(states[n], r, bit, 1000) != wanted}
    if harmful != {2}:
        sys.exit("no harm is found where a vote serves one word too many")


def try_program(kind, seed, folder, pool, everything):
    """Runs one program with its flips, and returns how many were tried by either, and lines on those that did harm."""
    program = Program(random.Random(seed))
    kind(program)
    states, wanted = states_of(program)
    exe, given = folder / "program.elf", folder / "input"
    executable(exe, program.code, program.size)
    given.write_bytes(program.given)
    words = [swiftr_program(), "run", exe, given, str(STEPS)]
    if wanted[1] is None or not wanted[1].startswith("ended") or by_swiftr(words) != wanted:
        return 0, 0, [f"{kind.__name__} {seed}: without a flip {by_swiftr(words)}, and as stated here {wanted}"]
    flips = flips_of(program, states)
    harmful = [flip for flip in flips if flipped(states[flip[0]], flip[1], flip[2], 2 * len(states) + 200) != wanted]
    chosen = flips if everything else random.Random(seed).sample(flips, min(SAMPLE, len(flips)))
    words = [[swiftr_program(), "flip", exe, given, str(STEPS), *map(str, flip)] for flip in chosen]
    harmful += [flip for flip, told in zip(chosen, pool.map(by_swiftr, words)) if told != wanted]
    lines = [
        f"{kind.__name__} {seed}: bit {bit} of x{r} before instruction {n}, the word {states[n].at}, does harm"
        for n, r, bit in sorted(set(harmful))
    ]
    return len(flips), len(chosen), lines


def main():
    words = [word for word in sys.argv[1:] if word != "--all"]
    numbers = [int(word) for word in words if word.isdigit()]
    names = [word for word in words if not word.isdigit()]
    rounds, first = (numbers + [3, 1][len(numbers) :])[:2]
    kinds = [kind for kind in KINDS if not names or kind.__name__ in names]
    if len(numbers) > 2 or len(kinds) < len(set(names)):
        sys.exit(__doc__ + "\nKinds: " + " ".join(kind.__name__ for kind in KINDS))
    check_examples()
    check_window_points()
    check_harm_is_found()
    bad = 0
    with tempfile.TemporaryDirectory() as folder, concurrent.futures.ThreadPoolExecutor(JOBS) as pool:
        for kind in kinds:
            totals, lines = [0, 0], []
            for seed in range(first, first + rounds):
                here, there, more = try_program(kind, seed, Path(folder), pool, "--all" in sys.argv)
                totals, lines = [totals[0] + here, totals[1] + there], lines + more
            bad += len(lines)
            outside = f"{totals[0]} flips outside the window points, {totals[1]} of them by swiftr"
            print(f"{kind.__name__:24} {rounds} programs, {outside}, {len(lines)} harmful")
            print("".join(f"    {line}\n" for line in lines[:10]), end="", flush=True)
    return 1 if bad else 0


if __name__ == "__main__":
    sys.exit(main())
