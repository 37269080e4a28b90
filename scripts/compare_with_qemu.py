#!/usr/bin/env python3
"""Compares the machine with a user emulator of RISC-V (Debian's qemu-user, and binutils-riscv64-linux-gnu).

Every instruction is run on numbers at the edges, in `swiftr run` and in qemu-riscv64: both must put out the same bytes
and end with the same status. The wanted answers of the rows of `rows_machine` are computed by the emulator too. Where a
tool is missing the comparison is skipped.
"""

import re
import shutil
import subprocess
import sys
import tempfile
from pathlib import Path

TOP = Path(__file__).resolve().parent.parent
TOOLS = ["qemu-riscv64", "riscv64-linux-gnu-as", "riscv64-linux-gnu-ld"]

EDGES = [0, 1, 2, 3, 31, 32, 63, 64, 2**31 - 1, 2**31, 2**32 - 1, 2**32, 2**63 - 1, 2**63, 2**64 - 2**31, 2**64 - 1, 0x8182838485868788]
ON_REGISTERS = (
    "add sub sll slt sltu xor srl sra or and addw subw sllw srlw sraw "
    "mul mulh mulhsu mulhu div divu rem remu mulw divw divuw remw remuw"
).split()
ON_IMMEDIATES = "addi slti sltiu xori ori andi addiw".split()
IMMEDIATES = [0, 1, -1, 2047, -2048]
SHIFTS = [(name, amount) for name in ("slli", "srli", "srai") for amount in (0, 1, 31, 32, 63)] + [
    (name, amount) for name in ("slliw", "srliw", "sraiw") for amount in (0, 1, 31)
]
BRANCHES = "beq bne blt bge bltu bgeu".split()
LOADS = "lb lh lw ld lbu lhu lwu".split()
STORES = "sb sh sw sd".split()
STEPS = 10_000_000


class Program:
    """Lines of assembly whose results go one after another to where x9 points."""

    def __init__(self):
        self.lines = []
        self.operands = []
        self.results = 0

    def case(self, a, b, *lines):
        """Runs the lines with a in x5 and b in x6, and keeps x10."""
        self.operands += [a, b]
        self.lines += ["ld x5,0(x8)", "ld x6,8(x8)", "addi x8,x8,16", *lines, "sd x10,0(x9)", "addi x9,x9,8"]
        self.results += 1

    def text(self):
        operands = "\n".join(f" .dword {number}" for number in self.operands)
        lines = "\n".join(f" {line}" if not line.endswith(":") else line for line in self.lines)
        return f""" .option norvc
 .option norelax
 .text
 .globl _start
_start:
 la x8,operands
 la x9,results
{lines}
 addi x10,x0,1
 la x11,results
 li x12,{8 * self.results}
 addi x17,x0,64
 ecall
 addi x10,x0,0
 addi x17,x0,93
 ecall
 .data
 .balign 8
place: .fill 64,1,0
operands:
{operands}
results: .fill {8 * self.results},1,0
"""


def build(folder, text):
    """The executable of a text of assembly."""
    source, linked, executable = folder / "program.s", folder / "program.o", folder / "program"
    source.write_text(text)
    subprocess.run(["riscv64-linux-gnu-as", "-march=rv64im", "-o", linked, source], check=True)
    subprocess.run(["riscv64-linux-gnu-ld", "-o", executable, linked], check=True)
    return executable


def by_qemu(executable, given=b""):
    """What the emulator puts out, and the status."""
    done = subprocess.run(["qemu-riscv64", executable], input=given, capture_output=True)
    return done.stdout, done.returncode


def by_swiftr(executable, given=None):
    """What the machine puts out, and the last line, which tells how the run ended."""
    done = subprocess.run([TOP / "swiftr", "run", executable, given or "-", str(STEPS)], capture_output=True)
    cut = done.stdout.rfind(b"\n", 0, -1) + 1
    while not re.match(rb"(ended|trap|steps|refused|absent|usage)", done.stdout[cut:]):
        cut += 1
        if cut >= len(done.stdout):
            break
    return done.stdout[:cut], done.stdout[cut:].decode(errors="replace").strip()


def sweep():
    """Every instruction that computes, branches, loads or stores, on all pairs of edges."""
    program = Program()
    pairs = [(a, b) for a in EDGES for b in EDGES]
    for name in ON_REGISTERS:
        for a, b in pairs:
            program.case(a, b, f"{name} x10,x5,x6")
    for a in EDGES:
        for name in ON_IMMEDIATES:
            for immediate in IMMEDIATES:
                program.case(a, 0, f"{name} x10,x5,{immediate}")
        for name, amount in SHIFTS:
            program.case(a, 0, f"{name} x10,x5,{amount}")
    for name in BRANCHES:
        for a, b in pairs:
            program.case(a, b, "addi x10,x0,1", f"{name} x5,x6,.+8", "addi x10,x0,2")
    for immediate in (0, 1, 0x7FFFF, 0x80000, 0xFFFFF):
        program.case(0, 0, f"lui x10,{immediate}")
        program.case(0, 0, "auipc x7,0", f"auipc x10,{immediate}", "sub x10,x10,x7")
    program.case(0, 0, "auipc x7,0", "jal x10,.+8", "addi x10,x0,5", "sub x10,x10,x7")
    program.case(0, 0, "auipc x10,0", "jalr x10,17(x10)", "addi x10,x0,5", "addi x10,x0,6", "addi x10,x10,1")
    for store in STORES:
        for load in LOADS:
            for at in (0, 1, 5, 16):
                program.case(EDGES[-1], 0, "la x7,place", "sd x0,0(x7)", "sd x0,8(x7)", f"{store} x5,{at}(x7)", f"{load} x10,{at}(x7)")
    return program


def rows():
    """The rows of one instruction, as a word, two numbers, and what x10 holds after it by the wanted answers."""
    crate = TOP / "crates/rows_machine"
    wanted = dict(line.split(": ", 1) for line in (crate / "stdout").read_text().splitlines() if ": " in line)
    found = []
    for line in (crate / "data/steps.txt").read_text().splitlines():
        if not line or line.startswith("#"):
            continue
        name, *numbers = line.split()
        value = re.search(r" x10=([0-9a-f]+)", wanted[name])
        word = int(numbers[0], 16)
        # Loads, AUIPC, branches and jumps go by the addresses of the rows.
        if value and word & 0x7F not in (0b0000011, 0b0010111, 0b1100011, 0b1101111, 0b1100111):
            found.append((word, int(numbers[1], 16), int(numbers[2], 16), int(value[1], 16)))
    return found


def check_rows(folder):
    """The wanted answers of rows_machine against the emulator."""
    found = rows()
    program = Program()
    for word, a, b, _ in found:
        program.case(a, b, f".word {word:#x}")
    out, status = by_qemu(build(folder, program.text()))
    assert status == 0, status
    wrong = 0
    for at, (word, a, b, value) in enumerate(found):
        got = int.from_bytes(out[8 * at : 8 * at + 8], "little")
        if got != value:
            wrong += 1
            print(f"{word:#010x} at {a:#x} and {b:#x}: the row says {value:#x}, the emulator {got:#x}")
    print(f"rows of one instruction: {len(found)} rows, {wrong} wrong")
    return wrong


ECHO = """ .option norvc
 .option norelax
 .text
 .globl _start
_start:
 addi x10,x0,0
 la x11,piece
 addi x12,x0,7
 addi x17,x0,63
 ecall
 beq x10,x0,done
 addi x12,x10,0
 addi x10,x0,1
 la x11,piece
 addi x17,x0,64
 ecall
 jal x0,_start
done:
 addi x10,x0,5
 addi x17,x0,93
 ecall
 .data
piece: .fill 7,1,0
"""


def compare(name, executable, given=b"", file=None):
    """Whether machine and emulator differ on a program."""
    out, status = by_qemu(executable, given)
    ours, line = by_swiftr(executable, file)
    same = out == ours and line.startswith(f"ended status={status} ")
    print(f"{name}: {len(out)} bytes, status {status}: {'the same' if same else 'DIFFERENT, ' + line}")
    return not same


def main():
    missing = [tool for tool in TOOLS if shutil.which(tool) is None]
    if missing:
        print(f"skipped: there is no {missing[0]}")
        return 0
    with tempfile.TemporaryDirectory() as name:
        folder = Path(name)
        wrong = check_rows(folder)
        wrong += compare("every instruction at the edges", build(folder, sweep().text()))
        given = folder / "input"
        given.write_bytes(bytes(range(256)) * 3)
        wrong += compare("input in pieces of seven", build(folder, ECHO), given.read_bytes(), given)
    return 1 if wrong else 0


if __name__ == "__main__":
    sys.exit(main())
