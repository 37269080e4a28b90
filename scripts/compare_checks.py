#!/usr/bin/env python3
"""Compares what is checked of names and types with a second statement of the rules, on random modules.

usage: scripts/compare_checks.py [COUNT [SEED]]

Makes modules of all kinds of items and instructions whose names and types are right, and breaks one rule at a random place
in every other one. The program of the crate `rows_checks` has to answer to each what `second_checker.py` does. Prints
where the two differ, or how often each rule was broken. Where the program isn't built the comparison is skipped.
"""

import random
import subprocess
import sys
import tempfile
from collections import Counter
from pathlib import Path

from second_checker import answer_and_rule
from second_reader import (
    BINARY, CONVERSIONS, EXACT, I1, I8, I32, INSTRUCTIONS, INTEGER_TYPES, PREDICATES, PTR, VOID, WRAPPING,
)

PROGRAM = Path(__file__).resolve().parent.parent / "crates/rows_checks/out/rows_checks"
WIDTHS = (1, 7, 8, 8, 16, 24, 32, 32, 33, 63, 64, 64)
STORABLE = (I8, ("i", 16), I32, ("i", 64), PTR)
WAYS = 6
WITHOUT_VALUE = ("undef", "poison", "zeroinitializer")
LETTERS = "abcxyzABC$._-"


def bare(name):
    """A name as it is written without quotes, or else in quotes."""
    return name if name and all(c.isalnum() or c in "$._-" for c in name) else f'"{name}"'


def listed(parts):
    """The tokens of parts, with commas between them."""
    return [token for number, part in enumerate(parts) for token in ([","] if number else []) + part]


def split_at(toks, at):
    """The tokens of the part of a list that begins at a token, up to the comma or the bracket after it."""
    depth, end = 0, at
    while end < len(toks):
        depth += (toks[end] in "([{<") - (toks[end] in ")]}>")
        if depth < 0 or (depth == 0 and toks[end] == ","):
            break
        end += 1
    return end


class Maker:
    """A random module whose names and types are right, as lines of tokens."""

    def __init__(self, rng):
        self.rng = rng
        self.types, self.globals, self.functions, self.declares = {}, {}, {}, {}
        self.values, self.labels = {}, []
        for number in range(rng.randrange(5)):
            self.types[self.name("t", number)] = self.ty(3)
        for number in range(rng.randrange(5)):
            self.globals[self.name("g", number)] = self.ty(3)
        for number in range(rng.randrange(1, 4)):
            name = rng.choice(["main", "putchar", "f 1"]) if rng.random() < 0.4 else f"f{number}"
            self.functions[name] = self.signature()
        for name, types in (("putchar", (I32, [I32])), ("getchar", (I32, []))):
            if name not in self.functions and rng.random() < 0.7:
                self.declares[name] = types
        if rng.random() < 0.3:
            self.declares["d"] = self.signature()
        # What may be called, with its types.
        self.callees = {name: types for name, types in self.functions.items() if name != "main"}
        self.callees |= {name: types for name, types in self.declares.items() if name != "d"}

    def chance(self, share):
        return self.rng.random() < share

    def name(self, kind, number):
        """A name that no other one of its kind has."""
        style = self.rng.randrange(8)
        if style == 0:
            return str(100 * (1 + "tgpvb".index(kind)) + number)
        return f"{kind} {number}" if style == 1 else f"{kind}{self.rng.choice(LETTERS)}{number}"

    def spelled(self, mark, name):
        """A name in one of its spellings."""
        style = self.rng.randrange(8)
        if style == 0:
            return f'{mark}"{name}"'
        if style == 1 and name:
            at = self.rng.randrange(len(name))
            return f'{mark}"{name[:at]}\\{ord(name[at]):02x}{name[at + 1:]}"'
        return mark + bare(name)

    # Types.

    def integer(self):
        return ("i", self.rng.choice(WIDTHS))

    def scalar(self):
        return PTR if self.chance(0.3) else self.integer()

    def signature(self):
        ret = VOID if self.chance(0.3) else self.scalar()
        return ret, [self.scalar() for _ in range(self.rng.randrange(4))]

    def ty(self, depth):
        """A type with a size; it may use the named types that there are already."""
        if self.types and self.chance(0.25):
            return ("named", self.rng.choice(list(self.types)))
        if depth == 0 or self.chance(0.4):
            return self.scalar()
        if self.chance(0.05):
            return ("array", 2**64 - 1, ("struct", False, ()))
        if self.chance(0.5):
            return ("array", self.rng.randrange(4), self.ty(depth - 1))
        return ("struct", self.chance(0.3), tuple(self.ty(depth - 1) for _ in range(self.rng.randrange(4))))

    def opened(self, ty):
        while ty[0] == "named":
            ty = self.types[ty[1]]
        return ty

    def ty_tokens(self, ty):
        if ty[0] == "i":
            return [f"i{ty[1]}"]
        if ty[0] == "named":
            return [self.spelled("%", ty[1])]
        if ty[0] == "array":
            return ["[", str(ty[1]), "x", *self.ty_tokens(ty[2]), "]"]
        if ty[0] == "struct":
            fields = ["{", *listed([self.ty_tokens(part) for part in ty[2]]), "}"]
            return ["<", *fields, ">"] if ty[1] else fields
        return [ty[0]]

    # Constants and operands.

    def number(self, width):
        least, most = -(2 ** (width - 1)), 2**width - 1
        return self.rng.choice([least, -1, 0, 1, most, self.rng.randint(least, most), min(most, self.rng.randrange(9))])

    def integer_tokens(self, width):
        if width == 1 and self.chance(0.5):
            return [self.rng.choice(["true", "false"])]
        return [str(self.number(width))]

    def constant(self, ty):
        """The tokens of a constant of a type; one that is no integer and no address stands in a global alone."""
        opened = self.opened(ty)
        named_scalar = opened != ty and opened[0] in ("i", "ptr")
        if named_scalar or self.chance(0.15) or (opened[0] == "array" and opened[1] > 9):
            return [self.rng.choice(WITHOUT_VALUE)]
        if opened[0] == "i":
            return self.integer_tokens(opened[1])
        if opened == PTR:
            return self.address() if self.globals and self.chance(0.6) else ["null"]
        if opened[0] == "array" and opened[2] == I8 and self.chance(0.7):
            return ['c"' + "".join(self.rng.choice(["a", "\\00", "\\5C", " "]) for _ in range(opened[1])) + '"']
        parts = [opened[2]] * opened[1] if opened[0] == "array" else opened[2]
        inner = listed([self.ty_tokens(part) + self.constant(part) for part in parts])
        if opened[0] == "array":
            return ["[", *inner, "]"]
        return ["<", "{", *inner, "}", ">"] if opened[1] else ["{", *inner, "}"]

    def address(self):
        """The tokens of a global, or of a constant address that is based on one."""
        if self.chance(0.6):
            return [self.spelled("@", self.rng.choice(list(self.globals)))]
        ty = self.ty(2)
        indices = [[*self.ty_tokens(index), str(number)] for index, number in self.path(ty)]
        operands = listed([self.ty_tokens(ty), ["ptr", *self.address()], *indices])
        return ["getelementptr", *self.rng.sample(["inbounds", "nuw"], self.rng.randrange(3)), "(", *operands, ")"]

    def path(self, ty):
        """Indices into a type, each with its own type; some of those into arrays may be replaced by other operands."""
        if self.chance(0.1):
            return []
        first = self.integer()
        steps = [(first, self.number(first[1]))]
        opened = self.opened(ty)
        while opened[0] in ("array", "struct") and (opened[0] == "array" or opened[2]) and self.chance(0.7):
            index = self.integer()
            if opened[0] == "array":
                steps.append((index, self.number(index[1])))
                opened = self.opened(opened[2])
            else:
                number = self.rng.randrange(len(opened[2]))
                steps.append((index if number < 2 ** index[1] else I8, number))
                opened = self.opened(opened[2][number])
        return steps

    def operand(self, ty):
        """The tokens of a value of the function, wherever it stands, or of a constant."""
        fitting = [name for name, other in self.values.items() if other == ty]
        if fitting and self.chance(0.7):
            return [self.spelled("%", self.rng.choice(fitting))]
        return self.constant(ty)

    def typed(self, ty):
        return self.ty_tokens(ty) + self.operand(ty)

    def label(self):
        return ["label", self.spelled("%", self.rng.choice(self.labels))]

    # Instructions: first what each is and gives, and, once all values are known, its tokens.

    def plan(self, is_entry):
        """The word of an instruction, the types that it has, and the type of its result or `void`."""
        word = self.rng.choice([w for w in INSTRUCTIONS if w != "alloca" or is_entry])
        if word in CONVERSIONS:
            narrow, wide = sorted(self.rng.sample(sorted(set(WIDTHS)), 2))
            types = (("i", wide), ("i", narrow)) if word == "trunc" else (("i", narrow), ("i", wide))
            return word, types, types[1]
        if word in BINARY:
            ty = self.integer()
            return word, ty, ty
        if word == "call":
            if not self.callees:
                return "freeze", PTR, PTR
            name = self.rng.choice(list(self.callees))
            return word, name, self.callees[name][0]
        if word in ("load", "store"):
            ty = self.rng.choice(STORABLE)
            return word, ty, ty if word == "load" else VOID
        if word in ("alloca", "getelementptr"):
            return word, self.ty(3), PTR
        ty = self.scalar()
        return word, ty, I1 if word == "icmp" else ty

    def inst(self, word, what):
        """The tokens of an instruction, without its result."""
        flags = ["nuw", "nsw"] if word in (*WRAPPING, "trunc") else ["exact"] if word in EXACT else []
        flags = ["inbounds", "nuw"] if word == "getelementptr" else flags
        head = [word, *self.rng.sample(flags, self.rng.randrange(len(flags) + 1))]
        if word == "phi":
            inputs = [["[", *self.operand(what), ",", *self.label()[1:], "]"] for _ in range(self.rng.randrange(1, 4))]
            return [*head, *self.ty_tokens(what), *listed(inputs)]
        if word in CONVERSIONS:
            return [*head, *self.typed(what[0]), "to", *self.ty_tokens(what[1])]
        if word in BINARY or word == "icmp":
            head += [self.rng.choice(PREDICATES)] if word == "icmp" else []
            return [*head, *listed([self.typed(what), self.operand(what)])]
        if word == "call":
            ret, params = self.callees[what]
            arguments = listed([self.typed(ty) for ty in params])
            return [*head, *self.ty_tokens(ret), self.spelled("@", what), "(", *arguments, ")"]
        return [*head, *listed(self.parts(word, what))]

    def parts(self, word, what):
        """What stands between the commas of an instruction of memory, of a select and of a freeze."""
        if word == "select":
            return [self.typed(I1), self.typed(what), self.typed(what)]
        if word == "alloca":
            count = ["i64", str(self.rng.choice([0, 1, 2, 7]))]
            return [self.ty_tokens(what), count] if self.chance(0.5) else [self.ty_tokens(what)]
        if word == "load":
            return [self.ty_tokens(what), self.typed(PTR)]
        if word == "store":
            return [self.typed(what), self.typed(PTR)]
        if word == "getelementptr":
            indices, ty = [], what
            for number, (index, value) in enumerate(self.path(what)):
                opened = self.opened(ty) if number else ("array", 0, ty)
                free = opened[0] == "array" and self.chance(0.5)
                indices.append(self.typed(index) if free else [*self.ty_tokens(index), str(value)])
                ty = opened[2] if opened[0] == "array" else opened[2][value]
            return [self.ty_tokens(what), self.typed(PTR), *indices]
        return [self.typed(what)]

    def term(self, ret):
        """The tokens of the last instruction of a block."""
        word = self.rng.choice(["jump", "br", "switch", "ret", "ret", "unreachable"])
        if word == "jump":
            return ["br", *self.label()]
        if word == "br":
            return [word, *listed([self.typed(I1), self.label(), self.label()])]
        if word == "switch":
            ty = self.integer()
            numbers = {number % 2 ** ty[1]: number for number in (self.number(ty[1]) for _ in range(4))}
            cases = [[*self.ty_tokens(ty), str(number), ",", *self.label()] for number in numbers.values()]
            return [word, *listed([self.typed(ty), self.label()]), "[", *sum(cases, []), "]"]
        if word == "ret":
            return [word, "void"] if ret == VOID else [word, *self.typed(ret)]
        return [word]

    # Items.

    def blocks(self, first):
        """The plans of the instructions of blocks, by their labels, with the names of results."""
        blocks, count = {}, 0
        for number in range(self.rng.randrange(1, 5)):
            plans = [("phi", ty, ty) for ty in [self.scalar() for _ in range(self.rng.randrange(3))]]
            plans += [self.plan(number == 0) for _ in range(self.rng.randrange(7))]
            named = []
            for word, what, result in plans:
                name = None if result == VOID or self.chance(0.1) else self.name("v", count)
                count += 1
                named.append((word, what, name))
                if name is not None:
                    self.values[name] = result
            blocks[first if number == 0 and first is not None else self.name("b", number)] = named
        return blocks

    def function(self, name):
        """The lines of a function."""
        ret, params = self.functions[name]
        named = [(ty, None if self.chance(0.1) else self.name("p", number)) for number, ty in enumerate(params)]
        self.values = {param: ty for ty, param in named if param is not None}
        unlabelled = str(sum(param is None or param.isdigit() for _, param in named)) if self.chance(0.5) else None
        blocks = self.blocks(unlabelled)
        self.labels = list(blocks)
        taken = [self.ty_tokens(ty) + ([self.spelled("%", param)] if param is not None else []) for ty, param in named]
        lines = [["define", *self.ty_tokens(ret), self.spelled("@", name), "(", *listed(taken), ")", "{"]]
        for label, plans in blocks.items():
            if label != unlabelled:
                lines.append([self.spelled("", label) + ":"])
            for word, what, result in plans:
                lines.append(([self.spelled("%", result), "="] if result is not None else []) + self.inst(word, what))
            lines.append(self.term(ret))
        return [*lines, ["}"]]

    def lines(self):
        items = [[[self.spelled("%", name), "=", "type", *self.ty_tokens(ty)]] for name, ty in self.types.items()]
        for name, ty in self.globals.items():
            word = self.rng.choice(["global", "constant"])
            items.append([[self.spelled("@", name), "=", word, *self.ty_tokens(ty), *self.constant(ty)]])
        for name, (ret, params) in self.declares.items():
            head = ["declare", *self.ty_tokens(ret), self.spelled("@", name), "("]
            for _ in range(self.rng.choice([1, 1, 1, 2])):
                items.append([[*head, *listed([self.ty_tokens(ty) for ty in params]), ")"]])
        items += [self.function(name) for name in self.functions]
        self.rng.shuffle(items)
        return [line for item in items for line in item]


# What breaks a rule at a random place. Each takes and gives lines of tokens; a few of these spell no module.


def word_of(toks):
    """What kind of line it is: its word."""
    return "label" if toks[0].endswith(":") else toks[2] if toks[1:2] == ["="] else toks[0]


def some_place(rng, lines, places):
    """One of some places in lines, lines of each word being as likely."""
    word = rng.choice(sorted({word_of(lines[place[0]]) for place in places}))
    return rng.choice([place for place in places if word_of(lines[place[0]]) == word])


def some_line(rng, lines):
    return some_place(rng, lines, [(line,) for line in range(len(lines))])[0]


def one_token(rng, lines, is_fitting):
    """The number of a line and of a token in it that fits."""
    places = [(line, at) for line, toks in enumerate(lines) for at, token in enumerate(toks) if is_fitting(token)]
    return some_place(rng, lines, places) if places else None


def replaced(rng, lines, is_fitting, others):
    """The lines with another token in the place of one."""
    if not (place := one_token(rng, lines, is_fitting)):
        return lines
    line, at = place
    return [*lines[:line], [*lines[line][:at], rng.choice(others), *lines[line][at + 1 :]], *lines[line + 1 :]]


def all_tokens(lines, mark):
    return [token for toks in lines for token in toks if token.startswith(mark)]


def other_type(rng, lines):
    words = ("ptr", "void", *INTEGER_TYPES)
    named = all_tokens([toks[:1] for toks in lines if "type" in toks[2:3]], "%")
    return replaced(rng, lines, lambda token: token in words, ["ptr", "void", "i1", "i8", "i9", "i32", "i64", *named])


def other_local(rng, lines):
    return replaced(rng, lines, lambda token: token[0] == "%", [*all_tokens(lines, "%"), "%absent", "%0"])


def other_global(rng, lines):
    names = [*all_tokens(lines, "@"), "@absent", "@main", "@putchar", "@getchar"]
    return replaced(rng, lines, lambda token: token[0] == "@", names)


def other_label(rng, lines):
    labels = [token for toks in lines for token in toks[:1] if token.endswith(":")]
    names = [token[1:] + ":" for token in all_tokens(lines, "%")]
    return replaced(rng, lines, lambda token: token.endswith(":"), [*labels, *names])


def other_number(rng, lines):
    powers = [2**power for power in (0, 7, 8, 30, 31, 32, 63, 64, 126)]
    numbers = [str(sign * power + step) for power in powers for sign in (1, -1) for step in (-1, 0, 1)]
    return replaced(rng, lines, lambda token: token.lstrip("-").isdigit(), numbers)


def other_constant(rng, lines):
    words = ("true", "false", "null", *WITHOUT_VALUE)
    others = [*words, "0", "1", 'c"ab"', *all_tokens(lines, "@"), *all_tokens(lines, "%")]
    return replaced(rng, lines, lambda token: token in words or token[0] in "%@c" or token.isdigit(), others)


def other_word(rng, lines):
    return replaced(rng, lines, lambda token: token in CONVERSIONS, CONVERSIONS)


def other_brackets(rng, lines):
    """A structure is packed, or no longer is."""
    if not (place := one_token(rng, lines, lambda token: token == "{")):
        return lines
    line, at = place
    toks, end = lines[line], split_at(lines[line], at + 1)
    if at and toks[at - 1] == "<":
        toks = [*toks[: at - 1], *toks[at : end + 1], *toks[end + 2 :]]
    else:
        toks = [*toks[:at], "<", *toks[at : end + 1], ">", *toks[end + 1 :]]
    return [*lines[:line], toks, *lines[line + 1 :]]


def other_count(rng, lines):
    """A part of a list is twice there, or isn't there."""
    if not (place := one_token(rng, lines, lambda token: token in (",", "(", "[", "{"))):
        return lines
    line, at = place
    toks, end = lines[line], split_at(lines[line], at + 1)
    part = toks[at + 1 : end]
    if rng.random() < 0.5:
        between = [","] if "=" in part or toks[at] != "[" or "label" not in part else []
        toks = [*toks[:end], *between, *part, *toks[end:]]
    else:
        toks = [*toks[:at], *toks[end:]] if toks[at] == "," else [*toks[: at + 1], *toks[min(end + 1, len(toks)) :]]
    return [*lines[:line], toks, *lines[line + 1 :]]


def other_place(rng, lines):
    """A line is elsewhere, or is twice there, or isn't there."""
    line, how = some_line(rng, lines), rng.randrange(4)
    to = rng.randrange(len(lines) + 1) if rng.random() < 0.5 else min(len(lines), line + rng.randrange(12))
    if how == 0:
        return lines[:line] + lines[line + 1 :]
    twice, old = lines[:to] + [lines[line]] + lines[to:], line + (line >= to)
    return twice if how == 1 else twice[:old] + twice[old + 1 :]


def other_result(rng, lines):
    """A result has no name, or what gives no result has one."""
    line = some_line(rng, lines)
    toks = lines[line][2:] if "=" in lines[line][1:2] else ["%new", "=", *lines[line]]
    return [*lines[:line], toks, *lines[line + 1 :]]


def case_twice(rng, lines):
    """A case of a switch is there twice, the second time with or without a sign."""
    if not (switches := [number for number, toks in enumerate(lines) if toks[0] == "switch" and toks[-2] != "["]):
        return lines
    line = rng.choice(switches)
    ty, number, *rest = lines[line][-6:-1]
    width = int(ty[1:]) if ty[1:].isdigit() else 1
    other = int(number) + rng.choice([0, 2**width, -(2**width)])
    return [*lines[:line], [*lines[line][:-1], ty, str(other), *rest, "]"], *lines[line + 1 :]]


BREAKS = (
    other_type, other_type, other_type, other_local, other_global, other_label, other_number, other_number, other_constant,
    other_word, other_brackets, other_count, other_place, other_place, other_result, case_twice,
)


def text_of(rng, lines):
    """The text of lines, as a row has it."""
    gaps = [" "] * 20 + ["\\n", " \\t", " ; note\\n"]
    return "".join(token + rng.choice(gaps) for toks in lines for token in toks)


def expanded(row):
    return row.replace("\\n", "\n").replace("\\t", "\t")


def broken(rng, times):
    """A row in which a rule is broken, with its answer and the rule: of some the one whose rule was broken the fewest
    times so far."""
    found = []
    while len(found) < WAYS:
        row = text_of(rng, rng.choice(BREAKS)(rng, Maker(rng).lines()))
        answer, rule = answer_and_rule(expanded(row))
        if rule:
            found.append((row, answer, rule))
    return min(found, key=lambda made: times[made[2]])


def right(rng):
    """A row in which no rule is broken, with its answer."""
    row = text_of(rng, Maker(rng).lines())
    answer, rule = answer_and_rule(expanded(row))
    if answer != "ok":
        sys.exit(f"what was made right is answered with {answer}, {rule}:\n{row}")
    return row, answer, rule


def modules(rng, count):
    """Rows, each with what the second statement answers, and with the rule that is broken."""
    made, times = [], Counter()
    for number in range(count):
        made.append(broken(rng, times) if number % 2 else right(rng))
        times[made[-1][2]] += 1
    return made


def answers(rows, file="checks.txt"):
    """What the program answers to the rows of one of its files."""
    with tempfile.TemporaryDirectory() as folder:
        for name in ("checks.txt", "flow.txt", "limits.txt"):
            text = "".join(row + "\n" for row in rows) if name == file else ""
            (Path(folder) / name).write_text(text, encoding="utf-8")
        done = subprocess.run([PROGRAM], cwd=folder, capture_output=True, text=True, check=False)
    lines = done.stdout.splitlines()
    if done.returncode != 0 or len(lines) != len(rows):
        sys.exit(f"the program ends with {done.returncode} after {len(lines)} of {len(rows)} rows: {done.stderr}")
    return [line.removeprefix(row + " -> ") for row, line in zip(rows, lines)]


def main():
    count, seed = map(int, (sys.argv[1:] + ["1000", "1"][len(sys.argv) - 1 :])[:2])
    if not PROGRAM.exists():
        print(f"skipped: {PROGRAM} isn't built")
        return
    made = modules(random.Random(seed), count)
    found = answers([row for row, _, _ in made])
    differing = [(row, answer, other) for (row, answer, _), other in zip(made, found) if answer != other]
    for row, answer, other in differing:
        print(f"{row}\n    here {answer}, the program {other}")
    broken = Counter(rule for _, _, rule in made if rule)
    print("\n".join(f"{times:6} {rule}" for rule, times in broken.most_common()))
    print(f"{count} modules, {sum(broken.values())} of them broken: {len(differing) or 'none'} differ")
    sys.exit(1 if differing else 0)


if __name__ == "__main__":
    main()
