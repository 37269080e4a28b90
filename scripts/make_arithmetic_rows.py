#!/usr/bin/env python3
"""Makes the rows of integer operations at the edges of their operands, and what is put out of them.

    scripts/make_arithmetic_rows.py            writes crates/rows_command/data/arithmetic.txt and, below build/, its answers
    scripts/make_arithmetic_rows.py check      and has LLVM's lli run each module: its output has to be the same

What is expected is worked out here from the Language Reference's words, in integers without a width, and by no other
program of this repository. Steps are counted from the text: each instruction but a phi is one.
"""

import shutil
import subprocess
import sys
import tempfile
from pathlib import Path

TOP = Path(__file__).resolve().parent.parent
ROWS = TOP / "crates/rows_command/data/arithmetic.txt"
ANSWERS = TOP / "build/arithmetic.stdout"
WIDTHS = (1, 7, 8, 31, 32, 33, 63, 64)

# What a line of results is: eight hexadecimal digits and a blank for each, by a function that takes sixteen steps a digit.
PUT = """declare i32 @putchar(i32)
define void @put(i64 %n) {
entry:
  br label %digit
digit:
  %s = phi i64 [ 60, %entry ], [ %t, %digit ]
  %h = lshr i64 %n, %s
  %d = and i64 %h, 15
  %k = trunc i64 %d to i32
  %l = icmp ult i32 %k, 10
  %v = select i1 %l, i32 48, i32 87
  %c = add i32 %k, %v
  %p = call i32 @putchar(i32 %c)
  %t = sub i64 %s, 4
  %e = icmp eq i64 %s, 0
  br i1 %e, label %end, label %digit
end:
  %b = call i32 @putchar(i32 32)
  ret void
}
"""
PUT_STEPS = 1 + 16 * 10 + 2


def signed(n, width):
    """A number of so many bits, read with a sign."""
    return n - (1 << width) if n >> (width - 1) else n


def towards_zero(a, b):
    """The quotient without its fraction."""
    q = abs(a) // abs(b)
    return q if (a < 0) == (b < 0) else -q


BINARY = {
    "add": lambda a, b, w: a + b,
    "sub": lambda a, b, w: a - b,
    "mul": lambda a, b, w: a * b,
    "and": lambda a, b, w: a & b,
    "or": lambda a, b, w: a | b,
    "xor": lambda a, b, w: a ^ b,
    "shl": lambda a, b, w: a << b,
    "lshr": lambda a, b, w: a >> b,
    "ashr": lambda a, b, w: signed(a, w) >> b,
    "udiv": lambda a, b, w: a // b,
    "urem": lambda a, b, w: a % b,
    "sdiv": lambda a, b, w: towards_zero(signed(a, w), signed(b, w)),
    "srem": lambda a, b, w: signed(a, w) - signed(b, w) * towards_zero(signed(a, w), signed(b, w)),
}
COMPARED = {
    "eq": lambda a, b, w: a == b,
    "ne": lambda a, b, w: a != b,
    "ugt": lambda a, b, w: a > b,
    "uge": lambda a, b, w: a >= b,
    "ult": lambda a, b, w: a < b,
    "ule": lambda a, b, w: a <= b,
    "sgt": lambda a, b, w: signed(a, w) > signed(b, w),
    "sge": lambda a, b, w: signed(a, w) >= signed(b, w),
    "slt": lambda a, b, w: signed(a, w) < signed(b, w),
    "sle": lambda a, b, w: signed(a, w) <= signed(b, w),
}


def edges(width):
    """Numbers of so many bits at the edges: around zero, around the least and the greatest with a sign, and one between."""
    top = 1 << width
    some = [0, 1, top - 1, top // 2, top // 2 - 1, 0xB6DB6DB6DB6DB6DB % top]
    return [n for k, n in enumerate(some) if n not in some[:k]]


def groups(width):
    """The operations that are tried on the same operands: a title, the operations, and both lists of operands."""
    every = edges(width)
    least = 1 << (width - 1)
    nonzero = [n for n in every if n != 0]
    amounts = sorted({0, width // 2, width - 1} - {width})
    yield "sums, products and bits", ["add", "sub", "mul", "and", "or", "xor"], every, every
    yield "comparisons", list(COMPARED), every, every
    yield "shifts", ["shl", "lshr", "ashr"], every, amounts
    yield "divisions without a sign", ["udiv", "urem"], every, nonzero
    others = [n for n in every if n != least]
    if others:
        yield "divisions with a sign", ["sdiv", "srem"], others, nonzero
    divisors = [n for n in nonzero if n != (1 << width) - 1]
    if divisors:
        yield "divisions of the least number", ["sdiv", "srem"], [least], divisors


def narrowed(width, name):
    """A line that makes a number of a width of one of 64 bits, and the name that it has then."""
    if width == 64:
        return [], f"%{name}64"
    return [f"  %{name} = trunc i64 %{name}64 to i{width}"], f"%{name}"


def results(width, operations, x, y):
    """The lines that compute results and put them out, and how many steps they take."""
    lines, steps = [], 0
    for operation in operations:
        bits = 1 if operation in COMPARED else width
        word = f"icmp {operation}" if operation in COMPARED else operation
        lines.append(f"  %{operation}.r = {word} i{width} {x}, {y}")
        name = f"%{operation}.r"
        if bits < 64:
            lines.append(f"  %{operation}.w = zext i{bits} %{operation}.r to i64")
            name = f"%{operation}.w"
        lines.append(f"  call void @put(i64 {name})")
        steps += (3 if bits < 64 else 2) + PUT_STEPS
    return lines, steps


def table(name, numbers):
    listed = ", ".join(f"i64 {signed(n, 64)}" for n in numbers)
    return f"@{name} = constant [{len(numbers)} x i64] [{listed}]"


def pairs_module(width, operations, firsts, seconds):
    """A module that puts out the results for all pairs, and how many steps it takes."""
    to_x, x = narrowed(width, "x")
    to_y, y = narrowed(width, "y")
    lines, steps = results(width, operations, x, y)
    body = [
        table("a", firsts),
        table("b", seconds),
        "define i32 @main() {",
        "entry:",
        "  br label %row",
        "row:",
        "  %i = phi i64 [ 0, %entry ], [ %i1, %next ]",
        f"  %p = getelementptr [{len(firsts)} x i64], ptr @a, i64 0, i64 %i",
        "  %x64 = load i64, ptr %p",
        *to_x,
        "  br label %cell",
        "cell:",
        "  %j = phi i64 [ 0, %row ], [ %j1, %cell ]",
        f"  %q = getelementptr [{len(seconds)} x i64], ptr @b, i64 0, i64 %j",
        "  %y64 = load i64, ptr %q",
        *to_y,
        *lines,
        "  %n = call i32 @putchar(i32 10)",
        "  %j1 = add i64 %j, 1",
        f"  %m = icmp eq i64 %j1, {len(seconds)}",
        "  br i1 %m, label %next, label %cell",
        "next:",
        "  %i1 = add i64 %i, 1",
        f"  %o = icmp eq i64 %i1, {len(firsts)}",
        "  br i1 %o, label %end, label %row",
        "end:",
        "  ret i32 0",
        "}",
    ]
    cell = 2 + len(to_y) + steps + 4
    row = 2 + len(to_x) + 1 + len(seconds) * cell + 3
    return PUT + "\n".join(body) + "\n", 1 + len(firsts) * row + 1


def pairs_output(width, operations, firsts, seconds):
    out = ""
    for a in firsts:
        for b in seconds:
            for operation in operations:
                if operation in COMPARED:
                    n = int(COMPARED[operation](a, b, width))
                else:
                    n = BINARY[operation](a, b, width) % (1 << width)
                out += f"{n:016x} "
            out += "\n"
    return out


def conversions_of(width):
    """The conversions from a width: their names, and the widths to which they lead."""
    for to in WIDTHS:
        for conversion in ("trunc",) if to < width else ("zext", "sext") if to > width else ():
            yield conversion, to


def conversions_module(width):
    """A module that puts out what the conversions of numbers of a width give, and how many steps it takes."""
    to_x, x = narrowed(width, "x")
    lines, steps = [], 0
    for conversion, to in conversions_of(width):
        name = f"%{conversion}{to}"
        lines.append(f"  {name} = {conversion} i{width} {x} to i{to}")
        if to < 64:
            lines.append(f"  {name}.w = zext i{to} {name} to i64")
            name += ".w"
        lines.append(f"  call void @put(i64 {name})")
        steps += (3 if to < 64 else 2) + PUT_STEPS
    numbers = edges(width)
    body = [
        table("a", numbers),
        "define i32 @main() {",
        "entry:",
        "  br label %row",
        "row:",
        "  %i = phi i64 [ 0, %entry ], [ %i1, %row ]",
        f"  %p = getelementptr [{len(numbers)} x i64], ptr @a, i64 0, i64 %i",
        "  %x64 = load i64, ptr %p",
        *to_x,
        *lines,
        "  %n = call i32 @putchar(i32 10)",
        "  %i1 = add i64 %i, 1",
        f"  %o = icmp eq i64 %i1, {len(numbers)}",
        "  br i1 %o, label %end, label %row",
        "end:",
        "  ret i32 0",
        "}",
    ]
    return PUT + "\n".join(body) + "\n", 1 + len(numbers) * (2 + len(to_x) + steps + 4) + 1


def conversions_output(width):
    out = ""
    for n in edges(width):
        for conversion, to in conversions_of(width):
            value = signed(n, width) if conversion == "sext" else n
            out += f"{value % (1 << to):016x} "
        out += "\n"
    return out


# What a flag asks of the exact result, or of what is lost: (operation, flag, is it kept)
def fits(n, width):
    return 0 <= n < 1 << width


def fits_with_sign(n, width):
    return -(1 << (width - 1)) <= n < 1 << (width - 1)


FLAGS = {
    ("add", "nuw"): lambda a, b, w: fits(a + b, w),
    ("add", "nsw"): lambda a, b, w: fits_with_sign(signed(a, w) + signed(b, w), w),
    ("sub", "nuw"): lambda a, b, w: fits(a - b, w),
    ("sub", "nsw"): lambda a, b, w: fits_with_sign(signed(a, w) - signed(b, w), w),
    ("mul", "nuw"): lambda a, b, w: fits(a * b, w),
    ("mul", "nsw"): lambda a, b, w: fits_with_sign(signed(a, w) * signed(b, w), w),
    ("shl", "nuw"): lambda a, b, w: fits(a << b, w),
    ("shl", "nsw"): lambda a, b, w: fits_with_sign(signed(a, w) << b, w),
    ("lshr", "exact"): lambda a, b, w: a % (1 << b) == 0,
    ("ashr", "exact"): lambda a, b, w: a % (1 << b) == 0,
    ("udiv", "exact"): lambda a, b, w: a % b == 0,
    ("sdiv", "exact"): lambda a, b, w: signed(a, w) % signed(b, w) == 0,
}


def flagged(operation, flag, width):
    """A pair of edges that keeps the flag, and one that doesn't, where there is one."""
    shifts = operation in ("shl", "lshr", "ashr")
    seconds = sorted({0, 1, width - 1} - {width}) if shifts else edges(width)
    kept = broken = None
    for a in edges(width):
        for b in seconds:
            if shifts and b >= width or "div" in operation and b == 0:
                continue
            if operation == "sdiv" and a == 1 << (width - 1) and b == (1 << width) - 1:
                continue
            if FLAGS[operation, flag](a, b, width):
                kept = a, b
            else:
                broken = broken or (a, b)
    return kept, broken


def flags_module(width, operation, flag, pair):
    """A module that ends with the lowest byte of a flagged result as its status."""
    a, b = (signed(n, width) if width > 1 else n for n in pair)
    if width == 1:
        a, b = (("false", "true")[n] for n in (a, b))
    lines = [
        "define i32 @main() {",
        f"  %r = {operation} {flag} i{width} {a}, {b}",
    ]
    name = "%r"
    if width < 32:
        lines.append(f"  %s = zext i{width} %r to i32")
        name = "%s"
    elif width > 32:
        lines.append(f"  %s = trunc i{width} %r to i32")
        name = "%s"
    return "\n".join([*lines, f"  ret i32 {name}", "}"]) + "\n", len(lines)


def folded(lines):
    """Lines of output as answers have them: of equal ones in a row the first, and how many more there are."""
    answers, again = [], 0
    for line, after in zip(lines, [*lines[1:], None]):
        if not again:
            answers.append(f"out {line}\\n")
        if line == after:
            again += 1
        elif again:
            answers.append(f"again {again}")
            again = 0
    return answers


class Rows:
    """The rows and their answers, as they come."""

    def __init__(self):
        self.rows = [
            "# Integer operations at the edges of their operands, for each width that is an edge of its own, and flags that are",
            "# kept and broken. scripts/make_arithmetic_rows.py makes this file and works out its answers.",
            "",
            "put 100000",
        ]
        self.answers = []

    def add(self, title, modules):
        self.rows += ["", f"case {title}"]
        self.answers.append(f"case {title}")
        for number, (text, out, note, status) in enumerate(modules, 1):
            words = f"eval {number}.ll - {STEPS}"
            self.rows += [f"file {number}.ll", *(f"text {line}\\n" for line in text.splitlines()), f"words {words}"]
            self.answers += [f"words {words}", f"status {status}"]
            self.answers += folded(out.splitlines())
            self.answers.append(f"note {note}\\n")


STEPS = 1000000


def module_rows():
    """Titles, and the modules below each with output, note and status."""
    for width in WIDTHS:
        for title, operations, firsts, seconds in groups(width):
            text, steps = pairs_module(width, operations, firsts, seconds)
            out = pairs_output(width, operations, firsts, seconds)
            yield f"{title}, i{width}", [(text, out, f"ended status=0 steps={steps}", 0)]
        text, steps = conversions_module(width)
        yield f"conversions from i{width}", [(text, conversions_output(width), f"ended status=0 steps={steps}", 0)]
    for operation, flag in FLAGS:
        found = []
        for width in WIDTHS:
            kept, broken = flagged(operation, flag, width)
            if kept:
                text, steps = flags_module(width, operation, flag, kept)
                status = BINARY[operation](*kept, width) % (1 << width) % 256
                found.append((text, "", f"ended status={status} steps={steps}", 0))
            if broken:
                text, _ = flags_module(width, operation, flag, broken)
                found.append((text, "", "undefined why=Poison", 3))
        yield f"{operation} {flag}, kept and broken", found


def run_by_llvm(modules):
    """Stops where lli puts out something else. A module whose meaning is undefined isn't run."""
    lli = next((path for version in range(30, 15, -1) if (path := shutil.which(f"lli-{version}"))), None)
    if not lli:
        print("skipped: lli is wanted, of a version from 16 on")
        return
    count = 0
    with tempfile.TemporaryDirectory() as name:
        path = Path(name) / "a.ll"
        for title, found in modules:
            for text, out, note, _ in found:
                if note.startswith("undefined"):
                    continue
                path.write_text(text)
                done = subprocess.run([lli, path], capture_output=True, text=True, check=False)
                if (done.stdout, done.returncode) != (out, int(note.split()[1].split("=")[1])):
                    sys.exit(f"{title}: lli puts out something else\n{text}{done.stdout}{done.stderr}{done.returncode}")
                count += 1
    print(f"lli: {count} modules, none differs")


def main():
    modules = list(module_rows())
    rows = Rows()
    for title, found in modules:
        rows.add(title, found)
    ROWS.write_text("\n".join(rows.rows) + "\n")
    ANSWERS.parent.mkdir(exist_ok=True)
    ANSWERS.write_text("\n".join(rows.answers) + "\n")
    print(f"{len(modules)} cases, {sum(len(found) for _, found in modules)} modules")
    if sys.argv[1:] == ["check"]:
        run_by_llvm(modules)


if __name__ == "__main__":
    main()
