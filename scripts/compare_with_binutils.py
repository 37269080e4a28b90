#!/usr/bin/env python3
"""Compares the texts of instructions with Debian's binutils for RISC-V.

Every instruction is written with some registers and immediates, assembled and linked by binutils, and taken apart by
`swiftr disasm`: the texts must be the ones that were written. Where a tool is missing the comparison is skipped.
"""

import random
import re
import shutil
import subprocess
import sys
import tempfile
from pathlib import Path

TOP = Path(__file__).resolve().parent.parent
TOOLS = ["riscv64-linux-gnu-as", "riscv64-linux-gnu-ld"]

ON_REGISTERS = (
    "add sub sll slt sltu xor srl sra or and addw subw sllw srlw sraw "
    "mul mulh mulhsu mulhu div divu rem remu mulw divw divuw remw remuw"
).split()
ON_IMMEDIATES = "addi slti sltiu xori ori andi addiw".split()
SHIFTS = {"slli": 63, "srli": 63, "srai": 63, "slliw": 31, "srliw": 31, "sraiw": 31}
BRANCHES = "beq bne blt bge bltu bgeu".split()
LOADS = "lb lh lw ld lbu lhu lwu".split()
STORES = "sb sh sw sd".split()
TIMES = 40


def lines(pick):
    """Texts of all 63 instructions, with registers and immediates from the whole of their ranges."""

    def register():
        return f"x{pick.choice([0, 1, 2, 5, 10, 31, pick.randrange(32)])}"

    def number(least, most, step=1):
        return pick.choice([least, most, 0, step, pick.randrange(least, most + 1, step)])

    for _ in range(TIMES):
        for name in ON_REGISTERS:
            yield f"{name} {register()},{register()},{register()}"
        for name in ON_IMMEDIATES:
            yield f"{name} {register()},{register()},{number(-2048, 2047)}"
        for name, most in SHIFTS.items():
            yield f"{name} {register()},{register()},{number(0, most)}"
        for name in [*LOADS, *STORES, "jalr"]:
            yield f"{name} {register()},{number(-2048, 2047)}({register()})"
        for name in BRANCHES:
            yield f"{name} {register()},{register()},{number(-4096, 4094, 2)}"
        yield f"jal {register()},{number(-1048576, 1048574, 2)}"
        for name in ("lui", "auipc"):
            yield f"{name} {register()},{number(0, 0xFFFFF)}"
        yield "ecall"


def for_assembler(line):
    """The line as the assembler reads it: it takes the offset of a branch or a jump from a label."""
    return re.sub(r"^((?:b\w+ \w+,\w+|jal \w+),)(-?\d+)$", lambda m: f"{m[1]}.{int(m[2]):+d}", line)


def main():
    missing = [tool for tool in TOOLS if shutil.which(tool) is None]
    if missing:
        print(f"skipped: there is no {missing[0]}")
        return 0
    wanted = list(lines(random.Random(1)))
    source = " .option norvc\n .option norelax\n .globl _start\n_start:\n" + "\n".join(f" {for_assembler(line)}" for line in wanted)
    with tempfile.TemporaryDirectory() as name:
        folder = Path(name)
        text, linked, executable = folder / "all.s", folder / "all.o", folder / "all"
        text.write_text(source + "\n")
        subprocess.run(["riscv64-linux-gnu-as", "-march=rv64im", "-o", linked, text], check=True)
        subprocess.run(["riscv64-linux-gnu-ld", "-n", "-o", executable, linked], check=True)
        done = subprocess.run([TOP / "swiftr", "disasm", executable], capture_output=True, text=True)
    found = [line.split(" ", 2)[2] for line in done.stdout.splitlines() if line.count(" ") >= 2]
    # what the linker puts before the text, as the file's own headers, is no part of it
    found = found[max(0, len(found) - len(wanted)) :]
    wrong = [(ours, theirs) for ours, theirs in zip(found, wanted) if ours != theirs]
    for ours, theirs in wrong[:10]:
        print(f"disasm has {ours}, the assembler {theirs}")
    if len(found) != len(wanted):
        print(f"disasm has {len(found)} lines, {len(wanted)} instructions were assembled")
    print(f"texts of 63 instructions: {len(wanted)} words, {len(wrong)} differ")
    return 1 if wrong or len(found) != len(wanted) else 0


if __name__ == "__main__":
    sys.exit(main())
