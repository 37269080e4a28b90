#!/usr/bin/env python3
"""Compares the printed modules with what LLVM reads of their texts.

C programs are compiled to LLVM IR by clang at several levels. `swiftr print` has to take each text, and LLVM's assembler
what it prints. LLVM's comparison of modules may find no difference between the functions of the two, but for the notes to
the optimizer and the debugger, which are dropped, and the globals have to be the same but for their attributes. What is
printed of the print has to be the print. Where a tool is missing the comparison is skipped.
"""

import re
import shutil
import subprocess
import sys
import tempfile
from pathlib import Path

TOP = Path(__file__).resolve().parent.parent
TOOLS = ["clang", "llvm-as", "llvm-dis", "llvm-diff"]
FLAGS = (
    "--target=riscv64-unknown-linux-gnu -S -emit-llvm -ffreestanding -fno-builtin -fno-vectorize -fno-slp-vectorize"
).split()
LEVELS = (["-O0"], ["-O1"], ["-O2"], ["-O1", "-g"], ["-O1", "-fno-discard-value-names"])

PROGRAMS = {
    "echo": """
int getchar(void); int putchar(int);
int main(void) { int c; while ((c = getchar()) != -1) putchar(c); return 0; }
""",
    "sieve": """
static unsigned char composite[1000];
int main(void) {
    int count = 0;
    for (int i = 2; i < 1000; i++) {
        if (composite[i]) continue;
        count++;
        for (int k = 2 * i; k < 1000; k += i) composite[k] = 1;
    }
    return count;
}
""",
    "words": """
int getchar(void); int putchar(int);
static const char *const names[] = {"zero", "one", "two \\"quoted\\" \\\\ \\x7f\\n", "three"};
static void put(const char *s) { while (*s) putchar(*s++); }
int main(void) { int c; while ((c = getchar()) >= 0) put(names[c & 3]); return 0; }
""",
    "shapes": """
struct point { int x, y; };
struct __attribute__((packed)) odd { char a; long b; short c; };
union word { unsigned u; unsigned char b[4]; };
struct shape { struct point corner[3]; struct odd odd; union word word; struct shape *next; };
struct shape first, second = {{{1, 2}, {3, -4}}, {5, 6, 7}, {0xdeadbeef}, &first};
struct point *inner = &second.corner[1];
long area(struct shape *s) {
    long sum = 0;
    for (; s; s = s->next)
        for (int i = 0; i < 3; i++) sum += (long)s->corner[i].x * s->corner[(i + 1) % 3].y + s->odd.b + s->word.b[2];
    return sum;
}
int main(void) { first.next = 0; second.odd.c++; return (int)area(&second) + inner->y; }
""",
    "numbers": """
int getchar(void);
int main(void) {
    unsigned a = (unsigned)getchar(); int b = getchar(); long long c = getchar(); unsigned long d = (unsigned long)getchar();
    short s = (short)b; signed char t = (signed char)a; _Bool z = a > 7;
    a = a / 3 + a % 5 - (a << 3) + (a >> 2); b = b / 3 - b % 7 + (b >> 1);
    c = c * 12345 ^ ~c; d = (d | 0xff00) & ~0xfUL;
    if (a < d && b >= c) a ^= (unsigned)s * 3u; else if (z || t <= b) d -= (unsigned long)t;
    return (int)(a + (unsigned)b + (unsigned)c + (unsigned)d) + s + t + z + (b == 4) + (d != 9) + (c > 2 ? 5 : 6);
}
""",
    "choices": """
int getchar(void); int putchar(int);
int kind(int c) {
    switch (c) {
        case '0': return 1; case '9': return 2; case 'x': case 'X': return 3;
        case -1: return 4; case 1000: putchar('!'); return 5; default: return c < 0 ? -6 : 6;
    }
}
int main(void) { int n = 0; for (int i = 0; i < 9; i++) n = 3 * n + kind(getchar()); return n; }
""",
    "recursion": """
long ackermann(long m, long n) { return m == 0 ? n + 1 : ackermann(m - 1, n == 0 ? 1 : ackermann(m, n - 1)); }
static int even(unsigned n); static int odd(unsigned n) { return n ? even(n - 1) : 0; }
static int even(unsigned n) { return n ? odd(n - 1) : 1; }
int main(void) { return (int)ackermann(2, 3) + even(101); }
""",
    "lists": """
struct node { int value; struct node *next; };
static struct node nodes[16]; static int used;
static struct node *add(struct node *rest, int value) {
    if (used == 16) return rest;
    struct node *n = &nodes[used++]; n->value = value; n->next = rest; return n;
}
int main(void) {
    struct node *all = 0; int sum = 0;
    for (volatile int i = 0; i < 20; i++) all = add(all, i * i);
    while (all) { sum += all->value; all = all->next; }
    return sum;
}
""",
}


def tools(names):
    """The newest version from 16 on that has all these tools, and their paths; or none."""
    for version in range(30, 15, -1):
        paths = [shutil.which(f"{name}-{version}") for name in names]
        if all(paths):
            return version, *paths
    return None


def without_notes(text):
    """The text without its lines that call or declare a note to the optimizer or the debugger."""
    return re.sub(r"^.*@llvm\.(?:dbg|lifetime|assume)\b.*\n", "", text, flags=re.MULTILINE)


def globals_of(text):
    """The globals of a text, without their attributes."""
    lines = [line for line in text.splitlines() if line.startswith("@")]
    lines = [re.sub(r" = .*?\b(global|constant)\b", r" = \1", line) for line in lines]
    return sorted(re.sub(r"(?:, (?:align \d+|!dbg !\d+))*$", "", line) for line in lines)


def put_out(path):
    """What `swiftr print` puts out of a file."""
    done = subprocess.run([TOP / "swiftr", "print", path], capture_output=True, check=False)
    if done.returncode != 0:
        sys.exit(f"{path}: status {done.returncode}, {done.stdout.decode(errors='replace')}")
    return done.stdout


def run(words, why):
    done = subprocess.run(words, capture_output=True, text=True, check=False)
    if done.returncode != 0:
        sys.exit(f"{why}:\n{done.stdout}{done.stderr}")
    return done.stdout


def compare(found, folder, source, level, where):
    """Stops where the module of a program, compiled at a level, isn't printed as LLVM reads it."""
    _, clang, assembler, disassembler, difference = found
    text, plain, printed, code = (folder / name for name in ("it.ll", "plain.ll", "printed.ll", "printed.bc"))
    run([clang, *FLAGS, *level, "-o", text, source], f"{where}: clang fails")
    printed.write_bytes(put_out(text))
    run([assembler, "-o", code, printed], f"{where}: LLVM doesn't take the print")
    plain.write_text(without_notes(text.read_text()))
    run([difference, plain, printed], f"{where}: LLVM finds a difference")
    if globals_of(plain.read_text()) != globals_of(run([disassembler, "-o", "-", code], f"{where}: LLVM fails")):
        sys.exit(f"{where}: a global is another one")
    if put_out(printed) != printed.read_bytes():
        sys.exit(f"{where}: the print of the print is another one")


def main():
    if not (found := tools(TOOLS)):
        print(f"skipped: {', '.join(TOOLS)} of one version from 16 on are wanted")
        return
    with tempfile.TemporaryDirectory() as name:
        folder = Path(name)
        source = folder / "it.c"
        for title, program in PROGRAMS.items():
            source.write_text(program)
            for level in LEVELS:
                compare(found, folder, source, level, f"{title} {' '.join(level)}")
    print(f"clang {found[0]}: {len(PROGRAMS)} programs, each compiled in {len(LEVELS)} ways: none differs")


if __name__ == "__main__":
    main()
