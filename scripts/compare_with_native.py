#!/usr/bin/env python3
"""Compares what `swiftr eval` says of C programs with what they do when they are compiled for this machine.

Each program, those of examples/ among them, is compiled by clang to LLVM IR at several levels, and natively once, so that
it stops at once where C leaves it undefined. On each input the output and the status have to be the same, wherever the
native one ends. Where a tool is missing the comparison is skipped.

    scripts/compare_with_native.py
"""

import random
import re
import subprocess
import sys
import tempfile
from pathlib import Path

from compare_with_llvm import FLAGS, PROGRAMS, TOP, tools

TOOLS = ["clang", "opt"]
LEVELS = {
    "-O0": ["-O0"],
    "-O0, with values in place of variables": ["-O0", "-Xclang", "-disable-O0-optnone"],
    "-O1": ["-O1"],
    "-O2": ["-O2", "-fno-unroll-loops"],
}
NATIVE = "-O1 -funsigned-char -fno-builtin -fsanitize=undefined -fsanitize-trap=all".split()
EXAMPLES = ("echo", "checksum", "median", "heater")
STEPS = "200000000"

MORE = {
    "bytes": """
int getchar(void); int putchar(int);
static unsigned char ring[7]; static unsigned head, count;
static void push(int c) { ring[(head + count++) % 7] = (unsigned char)c; }
static int pop(void) { int c = ring[head]; head = (head + 1) % 7; count--; return c; }
int main(void) {
    int c;
    while ((c = getchar()) >= 0) { if (count == 7) putchar(pop() ^ 0x55); push(c); }
    while (count) putchar(pop());
    return (int)head;
}
""",
    "sort": """
int getchar(void); int putchar(int);
static short keys[300];
static void swap(int i, int k) { short key = keys[i]; keys[i] = keys[k]; keys[k] = key; }
static void sort(int from, int to) {
    while (to - from > 1) {
        short pivot = keys[from];
        int low = from, high = to;
        for (int at = from + 1; at < high;)
            if (keys[at] < pivot) swap(low++, at++);
            else if (keys[at] > pivot) swap(--high, at);
            else at++;
        sort(from, low);
        from = high;
    }
}
int main(void) {
    int n = 0, c;
    while (n < 300 && (c = getchar()) >= 0) keys[n++] = (short)(c * 257 - 30000);
    sort(0, n);
    for (int i = 0; i < n; i++) putchar((keys[i] + 30000) / 257);
    return n & 255;
}
""",
    "fixed": """
int getchar(void); int putchar(int);
typedef long long fix;
static fix mul(fix a, fix b) { return (a * b) >> 16; }
static fix root(fix a) { fix x = (a >> 1) + 65536; for (int i = 0; i < 20; i++) x = (x + (a << 16) / x) >> 1; return x; }
static void put(fix a) { for (int s = 28; s >= 0; s -= 4) putchar("0123456789abcdef"[a >> s & 15]); putchar(10); }
int main(void) {
    fix level = 0; int c;
    while ((c = getchar()) >= 0) { level += mul(((fix)c << 16) - level, 9830); put(level); put(root(level + 1)); }
    return 0;
}
""",
}


def inputs():
    """Inputs from none to some thousand bytes."""
    chance = random.Random(1)
    return [b"", b"123456789", bytes(range(256)), bytes(chance.randrange(1, 255) for _ in range(3000)), b"\x14\x28\x32\x37\x3b\xff"]


def run(words, why):
    done = subprocess.run(words, capture_output=True, check=False)
    if done.returncode != 0:
        sys.exit(f"{why}:\n{done.stdout.decode(errors='replace')}{done.stderr.decode(errors='replace')}")


def evaluated(text, given):
    """What `swiftr eval` puts out, and the line after it."""
    words = [TOP / "swiftr", "eval", text, given, STEPS]
    done = subprocess.run(words, capture_output=True, check=False, env={"SWIFTR_QUIET": "1", "PATH": "/usr/bin:/bin"})
    told = re.search(rb"(?:ended status=\d+ steps=\d+|undefined why=\w+|steps over|refused [^\n]*)\n\Z", done.stdout)
    if not told:
        sys.exit(f"{text}: swiftr says {done.stdout[-80:]}, status {done.returncode}")
    return done.stdout[: told.start()], told.group().decode().strip()


def compare(natively, text, given, where):
    """Stops where a program does something else than the native one. Whether both ended."""
    native = subprocess.run([natively], input=given.read_bytes(), capture_output=True, check=False)
    if native.returncode < 0:
        return False
    out, note = evaluated(text, given)
    if out != native.stdout or not note.startswith(f"ended status={native.returncode} "):
        sys.exit(f"{where}: status {native.returncode}, {native.stdout[:80]} natively, but {note}, {out[:80]}")
    return True


def main():
    if not (found := tools(TOOLS)):
        print(f"skipped: {', '.join(TOOLS)} of one version from 16 on are wanted")
        return
    version, clang, opt = found
    programs = PROGRAMS | MORE | {name: (TOP / f"examples/{name}.c").read_text() for name in EXAMPLES}
    compared = stopped = 0
    with tempfile.TemporaryDirectory() as name:
        folder = Path(name)
        source, text, native, given = (folder / name for name in ("it.c", "it.ll", "it", "input"))
        for title, program in programs.items():
            source.write_text(program)
            run([clang, *NATIVE, "-o", native, source], f"{title}: clang fails")
            for level, words in LEVELS.items():
                where = f"{title}, {level}"
                run([clang, *FLAGS, *words, "-o", text, source], f"{where}: clang fails")
                if "-Xclang" in words:
                    run([opt, "-S", "-passes=sroa,simplifycfg", "-o", text, text], f"{where}: opt fails")
                for number, data in enumerate(inputs()):
                    given.write_bytes(data)
                    if compare(native, text, given, f"{where}, input {number}"):
                        compared += 1
                    else:
                        stopped += 1
    print(
        f"clang {version}: {len(programs)} programs, each compiled in {len(LEVELS)} ways, {len(inputs())} inputs each:"
        f" of {compared} runs none differs; {stopped} are undefined in C"
    )


if __name__ == "__main__":
    main()
