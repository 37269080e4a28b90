#!/usr/bin/env python3
"""Writes texts that would take long in a checker that isn't linear, or end it, each with its answer.

usage: scripts/hostile_texts.py FOLDER          writes each text into FOLDER, and `answers`, with a line `NAME -> ANSWER` for each
       scripts/hostile_texts.py FOLDER run      runs the program of the crate `rows_checks` on each too, and prints the seconds

Each text is a line of at most 4 MiB, as `compile` takes it. With `run` each text stands as a row in the file of rows of
the program that asks of it what is slow.
"""

import subprocess
import sys
import time
from itertools import product
from pathlib import Path

PROGRAM = Path(__file__).resolve().parent.parent / "crates/rows_checks/out/rows_checks"
MOST_BYTES = 4_194_304
MANY = 100_000
NAME_BYTES = "abcdefghijklmnopqrstuvwxyzABCDEFGHIJKLMNOPQRSTUVWXYZ0123456789$_"
WORD = 2**64 - 1
START = 0x243F_6A88_85A3_08D3
MULTIPLIER = 0x9E37_79B9_7F4A_7C15


def filled(head, pieces, tail):
    """A text of at most 4 MiB: a head, as many pieces as there is room for, and a tail."""
    room, taken = MOST_BYTES - len(head) - len(tail), []
    for piece in pieces:
        room -= len(piece)
        if room < 0:
            break
        taken.append(piece)
    return head + "".join(taken) + tail


# A table of the toolchain's default kind: a number or a name is hashed by folded multiplications that begin at a fixed
# state, a name as its length and then its bytes one by one. From the group of which the lowest bits of the hash are the
# number, one group after another is probed up to one that was never full.


def folded(a, b):
    return (a * b & WORD) ^ (a * b >> 64)


def collides(state):
    """Whether probing for what has this hash begins in the first sixteenth of a table of 65,536 groups."""
    return (state ^ state >> 32) & 0xF000 == 0


def after_number(number):
    return folded(START ^ number, MULTIPLIER ^ 16)


def after_byte(state, byte):
    return folded(state ^ byte * 0x10101, MULTIPLIER ^ 2)


def colliding_names(length):
    """Names that fill one group after another from the first ones on, so that each is looked for through nearly all."""
    state = after_number(length)
    for front in product(NAME_BYTES, repeat=length - 1):
        before = state
        for letter in front:
            before = after_byte(before, ord(letter))
        yield from ("".join(front) + letter for letter in NAME_BYTES if collides(after_byte(before, ord(letter))))


# Many of everything.


def ordinary():
    """Functions as a program has them."""

    def function(number):
        return (
            f"define i32 @count_matches_{number}(ptr %items, i32 %length, i32 %wanted) {{ entry: br label %for.cond "
            "for.cond: %index = phi i32 [ 0, %entry ], [ %next, %for.inc ] %found = phi i32 [ 0, %entry ], [ %sum, %for.inc ] "
            "%more = icmp slt i32 %index, %length br i1 %more, label %for.inc, label %for.end "
            "for.inc: %wide = sext i32 %index to i64 %place = getelementptr inbounds i32, ptr %items, i64 %wide "
            "%item = load i32, ptr %place %same = icmp eq i32 %item, %wanted %one = zext i1 %same to i32 "
            "%sum = add nsw i32 %found, %one %next = add nsw i32 %index, 1 br label %for.cond "
            "for.end: ret i32 %found } "
        )

    yield "ordinary", filled("", map(function, range(MOST_BYTES)), ""), "ok"


def long_functions():
    """One function of many instructions, of many blocks, of many parameters, and many functions."""
    sums = "".join(f"%a{number}=add i64 %a{number - 1},1 " for number in range(1, MANY))
    yield "instructions", f"define i64 @f(i64 %a0){{{sums}ret i64 %a{MANY - 1}}}", "ok"
    jumps = "".join(f"b{number}:br label %b{number + 1} " for number in range(MANY))
    yield "blocks", f"define void @f(){{{jumps}b{MANY}:ret void}}", "ok"
    params = ",".join(f"i8 %p{number}" for number in range(MANY))
    yield "parameters", f"define void @f({params}){{ret void}}", "ok"
    yield "functions", "".join(f"define i8 @f{number}(i8 %n){{ret i8 %n}}" for number in range(MANY)), "ok"
    inputs = ",".join(f"[%n,%b{number}]" for number in range(MANY))
    jumps = "".join(f"b{number}:br label %a " for number in range(MANY))
    yield "inputs", f"define i8 @f(i8 %n){{{jumps}a:%x=phi i8 {inputs} ret i8 %x}}", "ok"


def calls():
    """Calls of many functions, a function of many parameters that is called often, and one that is declared often."""
    functions = "".join(f"define void @f{number}(){{call void @f{number + 1}()ret void}}" for number in range(MANY // 2))
    yield "calls", f"{functions}define void @f{MANY // 2}(){{ret void}}", "ok"
    params, arguments = ",".join(["i8"] * 1000), ",".join(["i8 1"] * 1000)
    call = f"call void @f({arguments})"
    yield "arguments", filled(f"define void @f({params}){{ret void}}define void @g(){{", [call] * MANY, "ret void}"), "ok"
    yield "declared_again", "declare void @f(ptr)" * MANY, "ok"
    declared = f"declare void @f({params})"
    text = declared * 1000 + "declare void @f(i8)"
    yield "declared_otherwise", text, f"name {text.index('declare void @f(i8)')}"


# Types that hold types.


def nested_types():
    """Types each inside the next, in both orders of the text; rings; and types that only stand for others."""
    for name, ty in (("nested", "{%t#}"), ("renamed", "%t#")):
        rows = [f"%t{number}=type{ty.replace('#', str(number - 1))}" for number in range(1, MANY)]
        types = ["%t0=type{i8}", *rows]
        yield f"{name}_up", "".join(types), "ok"
        yield f"{name}_down", "".join(reversed(types)), "ok"
        ring = ["%t0=type" + ty.replace("#", str(MANY - 1)), *rows]
        yield f"{name}_ring", "".join(ring), "typing 0"
        below = "%u=type{i8}" + "".join(reversed(ring))
        yield f"{name}_ring_down", below, f"typing {below.index(f'%t{MANY - 1}=')}"


def opened_types():
    """A type that stands for another through many, opened often; and an address that enters as many structures."""
    types = "".join(f"%t{number}=type %t{number - 1} " for number in range(1, MANY // 2)) + "%t0=type{i8,i8}"
    last = f"%t{MANY // 2 - 1}"
    address = f"getelementptr {last},ptr %p,i8 0,i8 1 "
    yield "opened", filled(f"{types}define void @f(ptr %p){{", [address] * MANY, "ret void}"), "ok"
    yield "opened_constants", filled(types, (f"@g{number}=global {last}{{i8 1,i8 2}}" for number in range(MANY)), ""), "ok"
    types = "%t0=type i8" + "".join(f"%t{number}=type{{%t{number - 1}}}" for number in range(1, MANY))
    indices = ",i1 0" * MANY
    yield "entered", f"{types}define void @f(ptr %p){{getelementptr %t{MANY - 1},ptr %p{indices} ret void}}", "ok"
    text = f"{types}define void @f(ptr %p){{getelementptr %t{MANY - 1},ptr %p{indices},i1 0 ret void}}"
    yield "entered_too_far", text, f"typing {text.index('getelementptr')}"


def doubled_types():
    """Types that hold the one before twice, of nothing and of a byte; the latter are too great from the 31st on."""
    rows = [f"%t{number}=type{{%t{number - 1},%t{number - 1}}}" for number in range(1, 60)]
    yield "doubled_nothing", "%t0=type{}" + "".join(rows), "ok"
    text = "%t0=type i8 " + "".join(rows)
    yield "doubled_bytes", text, f"typing {text.index('%t31=')}"


def great_types():
    """Arrays of as many elements as can be written, and structures of many fields, one of them entered often."""
    yield "nothings", "@g=global[18446744073709551615 x{}]zeroinitializer", "ok"
    yield "bytes", "@g=global[18446744073709551615 x i8]zeroinitializer", "typing 0"
    yield "wrapping", "@g=global[274877906944 x[67108864 x i64]]zeroinitializer", "typing 0"
    yield "counted", "define void @f(){%p=alloca{},i64 170141183460469231731687303715884105727 ret void}", "ok"
    fields = ",".join(["i8"] * 300_000)
    yield "fields", f"@g=global{{{fields}}}zeroinitializer", "ok"
    yield "values", f"@g=global{{{fields}}}{{{fields.replace('i8', 'i8 1')}}}", "ok"
    address = "getelementptr %t,ptr %p,i8 0,i32 299999 "
    yield "entered_fields", filled(f"%t=type{{{fields}}}define void @f(ptr %p){{", [address] * MANY, "ret void}"), "ok"


def switches():
    """Many cases, all distinct; the same with a last one that is the first without its sign; and many that collide."""
    cases = [f"i32 {number},label %a " for number in range(-MANY // 2, MANY // 2)]
    head = "define void @f(i32 %n){switch i32 %n,label %a["
    yield "cases", head + "".join(cases) + "]a:ret void}", "ok"
    text = head + "".join(cases) + f"i32 {2**32 - MANY // 2},label %a]a:ret void}}"
    yield "repeated_case", text, f"typing {text.index('switch')}"
    numbers = (number for number in range(2**64) if collides(after_number(number)))
    cases = (f"i64 {number},label %a " for number in numbers)
    yield "colliding_cases", filled("define void @f(i64 %n){switch i64 %n,label %a[", cases, "]a:ret void}"), "ok"


def colliding():
    """Parameters whose names collide, up to the size of a text."""
    names = (f",i8 %{name}" for name in colliding_names(5))
    yield "colliding_names", filled("define void @f(i8", names, "){ret void}"), "ok"


# Flow: each function is one that no rule of flow speaks against, or the fault is the last or the first. There is no `main`, which is
# asked for after the flow.


def in_a_row():
    """Blocks one after the other, each with a value that the next one uses, and with the first one's."""
    blocks = [f"b{n}:%v{n}=add i8 %v{n - 1},%v0 br label %b{n + 1} " for n in range(1, 60_000)]
    head, end = "define void @f(){b0:%v0=add i8 1,1 br label %b1 ", "b60000:%w=add i8 %v59999,%v30000 ret void}"
    yield "row", head + "".join(blocks) + end, "no main"
    unknown = end.replace("%v30000", "%u") + "define void @g(){ret void}"
    side = "b60001:%u=add i8 1,1 br label %b60000 "
    text = head.replace("br label %b1 ", "br i1 true,label %b1,label %b60001 ") + side + "".join(blocks) + unknown
    yield "last_wrong", text, f"flow {text.index('%w=')}"
    early = [f"b{n}:%v{n}=add i8 %v{n + 1},1 br label %b{n + 1} " for n in range(1, 60_000)]
    text = head + "".join(early) + "b60000:%v60000=add i8 1,1 ret void}"
    yield "all_wrong", text, f"flow {text.index('%v1=')}"


def ladders():
    """Two rows of blocks with rungs from one to the other, in one direction and in both."""
    rails = [f"a{n}:br i1 %c,label %a{n + 1},label %b{n} b{n}:br label %b{n + 1} " for n in range(35_000)]
    head, end = "define void @f(i1 %n){s:%c=add i1 %n,1 br label %a0 ", "a35000:br label %b35000 b35000:%w=add i1 %c,1 ret void}"
    yield "ladder", head + "".join(rails) + end, "no main"
    rails = [
        f"a{n}:br i1 %c,label %a{n + 1},label %b{n} b{n}:br i1 %c,label %b{n + 1},label %a{n} " for n in range(30_000)
    ]
    end = "a30000:br label %b30000 b30000:%w=add i1 %c,1 ret void}"
    yield "ladder_both_ways", head + "".join(rails) + end, "no main"


def combs():
    """Blocks that each lead to the next one and to one exit, whose phi names them all; the same by a switch."""
    teeth = [f"b{n}:br i1 %c,label %b{n + 1},label %e " for n in range(50_000)]
    inputs = ",".join(f"[{n % 2},%b{n}]" for n in range(50_001))
    head, end = "define void @f(i1 %c){", f"b50000:br label %e e:%p=phi i8{inputs} %w=add i8 %p,1 ret void}}"
    yield "comb", head + "".join(teeth) + end, "no main"
    cases = "".join(f"i32 {n},label %e " for n in range(MANY))
    yield "one_way", f"define void @f(i32 %n){{a:switch i32 %n,label %e[{cases}]e:%p=phi i8[1,%a] ret void}}", "no main"
    missing = "".join(f"%p{n}=phi i8[1,%b1] " for n in range(50_000))
    text = head + "".join(teeth[:30_000]) + f"b30000:br label %e e:{missing}ret void}}"
    yield "phis_without_inputs", text, f"flow {text.index('%p0=')}"


def loops():
    """Loops inside loops, and blocks that lead to each other in both directions."""
    begins = [f"b{n}:%v{n}=add i8 1,1 br label %b{n + 1} " for n in range(1, 30_000)]
    ends = [f"e{n}:%w{n}=add i8 %v{n},1 br i1 %c,label %b{n},label %e{n - 1} " for n in range(29_999, 1, -1)]
    text = "define void @f(i1 %c){s:br label %b1 " + "".join(begins) + "b30000:br label %e29999 " + "".join(ends) + "e1:ret void}"
    yield "nested_loops", text, "no main"
    both = [f"b{n}:br i1 %c,label %b{n + 1},label %b{n - 1} " for n in range(1, 60_000)]
    text = "define void @f(i1 %c){s:br i1 %c,label %b0,label %b60000 b0:br label %b1 " + "".join(both) + "b60000:br label %b59999 }"
    yield "both_ways", text, "no main"


FLOWS = (in_a_row, ladders, combs, loops)

KINDS = (
    ordinary, long_functions, calls, nested_types, opened_types, doubled_types, great_types, switches, colliding,
)


# The files of rows of the program, with the kinds of texts that stand in each.
FILES = {"checks.txt": KINDS, "flow.txt": FLOWS, "limits.txt": ()}


def run(folder, file, text):
    """What the program answers to a text in a file of rows, and how many seconds that takes."""
    for name in FILES:
        (folder / name).write_text(text + "\n" if name == file else "", encoding="utf-8")
    begin = time.monotonic()
    done = subprocess.run([PROGRAM], cwd=folder, capture_output=True, text=True, check=False)
    return done.stdout.removeprefix(text + " -> ").strip() or done.stderr, time.monotonic() - begin


def main():
    if len(sys.argv) < 2 or sys.argv[2:] not in ([], ["run"]):
        sys.exit(__doc__)
    if len(sys.argv) == 3 and not PROGRAM.exists():
        sys.exit(f"{PROGRAM} isn't built")
    folder, answers, wrong = Path(sys.argv[1]), [], 0
    folder.mkdir(parents=True, exist_ok=True)
    for file, (name, text, answer) in ((file, made) for file, kinds in FILES.items() for kind in kinds for made in kind()):
        if len(text) > MOST_BYTES:
            sys.exit(f"{name} has {len(text)} bytes")
        (folder / f"{name}.ll").write_text(text, encoding="utf-8")
        answers.append(f"{name}.ll -> {answer}\n")
        if len(sys.argv) == 3:
            found, seconds = run(folder, file, text)
            wrong += found != answer
            print(f"{seconds:8.2f} {name}: {found}" + ("" if found == answer else f", and not {answer}"), flush=True)
    (folder / "answers").write_text("".join(answers), encoding="utf-8")
    print(f"{len(answers)} texts" + (f", {wrong} with a wrong answer" if len(sys.argv) == 3 else ""))
    sys.exit(1 if wrong else 0)


if __name__ == "__main__":
    main()
