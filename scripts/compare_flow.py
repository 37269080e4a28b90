#!/usr/bin/env python3
"""Compares what the program of crates/rows_checks says of the flow of random modules with a second statement of the rules.

usage: scripts/compare_flow.py [COUNT [SEED]]

Each module has functions whose blocks lead to each other at random, with phis and values that are used at random; about half of them
are right. The second statement is scripts/second_flow.py. The program is crates/rows_checks/out/rows_checks, as `rt run` builds it.
"""

import random
import sys
from collections import Counter

import second_flow
from compare_checks import PROGRAM, answers


class Maker:
    """A function that is made at random: which block leads to which comes first."""

    def __init__(self, rng, wild):
        self.rng, self.wild = rng, wild
        self.count = rng.randint(1, 7)
        self.targets = [self.some_targets() for _ in range(self.count)]
        self.given = []
        self.next = 0

    def some_targets(self):
        lowest = 0 if self.rng.random() < self.wild / 4 else 1
        if self.count <= lowest or self.rng.random() < 0.2:
            return []
        return [self.rng.randrange(lowest, self.count) for _ in range(self.rng.choice((1, 1, 2, 2, 3)))]

    def predecessors(self, block):
        return [other for other in range(self.count) if block in self.targets[other]]

    def fresh(self, block):
        self.next += 1
        self.given.append((block, f"%v{self.next}"))
        return f"%v{self.next}"

    def some_value(self, block):
        """A number, or a value: mostly one of this block or of one that comes before it."""
        if not self.given or self.rng.random() < 0.3:
            return str(self.rng.randrange(3))
        known = [name for other, name in self.given if other in (0, block)] or [name for _, name in self.given]
        return self.rng.choice(known if self.rng.random() > self.wild else [name for _, name in self.given])

    def phi(self, block):
        """A phi whose inputs are filled in once all values are given."""
        return [self.fresh(block), None]

    def inputs(self, block):
        found = self.predecessors(block)
        if self.rng.random() < self.wild / 3:
            found = self.rng.sample(range(self.count), self.rng.randint(1, self.count))
        if found and self.rng.random() < 0.2:
            found.append(self.rng.choice(found))
        values = {other: self.some_value(other) for other in found}
        if self.rng.random() < self.wild / 3:
            values = {other: self.some_value(self.rng.randrange(self.count)) for other in found}
        return ", ".join(f"[{values[other]}, %b{other}]" for other in found)

    def terminator(self, block):
        targets = self.targets[block]
        if not targets:
            return f"ret i32 {self.some_value(block)}"
        if len(targets) == 1:
            return f"br label %b{targets[0]}"
        if len(targets) == 2:
            return f"br i1 true, label %b{targets[0]}, label %b{targets[1]}"
        cases = " ".join(f"i32 {k}, label %b{to}" for k, to in enumerate(targets[1:]))
        return f"switch i32 {self.some_value(block)}, label %b{targets[0]} [{cases}]"

    def text(self, name):
        phis, bodies = {}, {}
        for block in range(self.count):
            has_phis = self.predecessors(block) and (block or self.rng.random() < self.wild / 4)
            phis[block] = [self.fresh(block) for _ in range(self.rng.choice((0, 1, 1, 2)) if has_phis else 0)]
            bodies[block] = []
            for _ in range(self.rng.randint(0, 3)):
                operands = self.some_value(block), self.some_value(block)
                bodies[block].append(f"{self.fresh(block)} = add i32 {operands[0]}, {operands[1]}")
        lines = []
        for block in range(self.count):
            lines.append(f"b{block}:")
            lines += [f"{phi} = phi i32 {self.inputs(block)}" for phi in phis[block] if self.predecessors(block)]
            lines += bodies[block] + [self.terminator(block)]
        return f"define i32 @{name}() {{ {' '.join(lines)} }}"


def module(rng):
    wild = rng.choice((0, 0, 0.1, 0.3))
    return " ".join(Maker(rng, wild).text(name) for name in rng.choice((["main"], ["main"], ["f", "main"], ["f"])))


def main():
    count, seed = map(int, (sys.argv[1:] + ["1000", "1"][len(sys.argv) - 1 :])[:2])
    if not PROGRAM.exists():
        print(f"skipped: {PROGRAM} isn't built")
        return
    rng = random.Random(seed)
    rows = [module(rng) for _ in range(count)]
    kinds, differing = Counter(), 0
    for row, answer in zip(rows, answers(rows, "limits.txt"), strict=True):
        expected = second_flow.answer(row)
        kinds[expected.split(" ")[0]] += 1
        if answer != expected:
            differing += 1
            print(f"{row}\n    here {expected}, the program {answer}")
    print("\n".join(f"{times:6} {kind}" for kind, times in kinds.most_common()))
    print(f"{count} modules: {differing or 'none'} differ")
    sys.exit(1 if differing else 0)


if __name__ == "__main__":
    main()
