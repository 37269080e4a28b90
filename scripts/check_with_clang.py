#!/usr/bin/env python3
"""Checks that what clang writes is proper and within the limits.

The C programs of compare_with_llvm.py are compiled to LLVM IR by each clang from 16 on that is installed, at several levels. The
program of `crates/rows_checks` has to accept each text. Where there is no clang the check is skipped.
"""

import shutil
import subprocess
import sys
import tempfile
from pathlib import Path

from compare_checks import PROGRAM, answers
from compare_with_llvm import FLAGS, LEVELS, PROGRAMS


def row_of(clang, source, level):
    """A program compiled by a clang at a level, as a row."""
    done = subprocess.run([clang, *FLAGS, *level, "-o", "-", source], capture_output=True, text=True, check=False)
    if done.returncode != 0:
        sys.exit(f"{clang} fails on {source}:\n{done.stderr}")
    return done.stdout.replace("\t", "\\t").replace("\n", "\\n")


def main():
    clangs = [path for version in range(16, 31) if (path := shutil.which(f"clang-{version}"))]
    if not clangs or not PROGRAM.exists():
        print("skipped: a clang from 16 on and the program of crates/rows_checks are wanted")
        return
    rows, places = [], []
    with tempfile.TemporaryDirectory() as folder:
        for title, program in PROGRAMS.items():
            source = Path(folder) / f"{title}.c"
            source.write_text(program)
            for clang in clangs:
                for level in LEVELS:
                    rows.append(row_of(clang, source, level))
                    places.append(f"{title} {clang} {' '.join(level)}")
    for place, answer in zip(places, answers(rows, "flow.txt")):
        if answer != "ok":
            sys.exit(f"{place}: {answer}")
    print(f"{len(rows)} texts of {len(clangs)} clangs: all proper and within the limits")


if __name__ == "__main__":
    main()
