"""A second reader of texts, for `second_checker.py`: the tokens of a text, those that are kept, and the items that these spell.

It says neither which reason comes first why a text has no module, nor at which offset the first wrong token is.
"""

import re
from dataclasses import dataclass, field

NAME_BYTE = "[A-Za-z0-9$._-]"
STRING = '"[^"]*"'
# In the order in which they are tried.
KINDS = {
    "gap": r"[ \t\r\n]+|;[^\n]*",
    "local": f"%(?:{NAME_BYTE}+|{STRING})",
    "global": f"@(?:{NAME_BYTE}+|{STRING})",
    "text": f"c{STRING}",
    "label": f"(?:{NAME_BYTE}+|{STRING}):",
    "string": STRING,
    "float": rf"[+-]?[0-9]+\.[0-9]*(?:[eE][+-]?[0-9]+)?|0x{NAME_BYTE}+",
    "int": f"-?[0-9]+(?!{NAME_BYTE})",
    "word": f"[A-Za-z$._]{NAME_BYTE}*",
    "meta": r"![A-Za-z0-9$._\\-]*",
    "hash": f"#{NAME_BYTE}+",
    "punct": r"[=,()\[\]{}<>*|]",
}
TOKEN = re.compile("|".join(f"(?P<{kind}>{spelling})" for kind, spelling in KINDS.items()))

DROPPED_LINES = {"source_filename", "target", "attributes", "uselistorder"}
DROPPED_CALLS = {"declare", "call", "tail", "notail", "musttail"}
GROUP_WORDS = set(
    """dereferenceable dereferenceable_or_null captures range memory initializes allocsize sret elementtype comdat uwtable
    allockind vscale_range nofpclass""".split()
)
QUIET_WORDS = set(
    """dso_local dso_preemptable private internal linkonce linkonce_odr weak weak_odr common hidden protected default
    unnamed_addr local_unnamed_addr fastcc ccc coldcc tail notail musttail signext zeroext inreg noalias nocapture nonnull
    noundef returned readonly readnone writeonly nofree immarg nounwind willreturn mustprogress nosync norecurse noreturn
    noinline alwaysinline optnone optsize minsize cold hot speculatable ssp sspstrong sspreq builtin nobuiltin allocptr
    dead_on_unwind writable volatile nneg disjoint samesign nusw""".split()
)
WRAPPING = ("add", "sub", "mul", "shl")
EXACT = ("udiv", "sdiv", "lshr", "ashr")
BINARY = (*WRAPPING, *EXACT, "urem", "srem", "and", "or", "xor")
CONVERSIONS = ("zext", "sext", "trunc")
PREDICATES = ("eq", "ne", "ugt", "uge", "ult", "ule", "sgt", "sge", "slt", "sle")
INSTRUCTIONS = (*BINARY, *CONVERSIONS, "icmp", "select", "freeze", "alloca", "load", "store", "getelementptr", "call")
TERMINATORS = ("br", "switch", "ret", "unreachable")
INTEGER_TYPES = tuple(f"i{width}" for width in range(1, 65))
CONSTANT_WORDS = ("true", "false", "null", "undef", "poison", "zeroinitializer", "getelementptr")


# What is read of a text. A type is ("i", width), ("ptr",), ("void",), ("array", count, type), ("struct", packed, types)
# or ("named", name). A value is ("local", name) or a constant: ("int", number), ("bool",), ("null",), ("any",) for
# `undef`, `poison` and `zeroinitializer`, ("text", length), ("global", name), ("array", typed), ("struct", packed, typed)
# or ("address", type, pointer, indices), where what is typed is a pair of a type and a constant.

I1, I8, I32, PTR, VOID = ("i", 1), ("i", 8), ("i", 32), ("ptr",), ("void",)


@dataclass
class Token:
    kind: str
    text: str
    at: int
    first: bool


@dataclass
class Inst:
    """An instruction: what it states besides its operands, and these with their types."""

    at: int
    result: str | None
    word: str
    operands: list = field(default_factory=list)
    labels: list = field(default_factory=list)
    # The type of an alloca, a load, an address or a call, or that to which is converted.
    ty: tuple | None = None
    count: int = 1
    callee: str | None = None
    # The types and numbers of the cases of a switch.
    cases: list = field(default_factory=list)


@dataclass
class Block:
    name: str
    insts: list


@dataclass
class Item:
    """A named type, a global, a declared or a defined function, by its word. It has what its word has."""

    at: int
    word: str
    name: str
    ty: tuple
    value: tuple | None = None
    params: list = field(default_factory=list)
    param_names: list = field(default_factory=list)
    blocks: list = field(default_factory=list)


class NoModule(Exception):
    """A token at the offset is one that no module has there."""


# Tokens, and which of them are kept.


def tokens(text):
    """All tokens of a text."""
    found, at, line_end = [], 0, True
    while at < len(text):
        match = TOKEN.match(text, at)
        if not match or (match.lastgroup == "int" and not -(2**127) <= int(match.group()) < 2**127):
            raise NoModule(at)
        if match.lastgroup == "gap":
            line_end = line_end or "\n" in match.group()
        else:
            found.append(Token(match.lastgroup, match.group(), at, line_end))
            line_end = False
        at = match.end()
    return found


def is_word(token, words):
    return token.kind == "word" and token.text in words


def unescaped(text):
    """The bytes between quotes."""
    return re.sub(r"\\(?:([0-9A-Fa-f]{2})|\\)", lambda m: chr(int(m[1], 16)) if m[1] else "\\", text)


def name_of(token):
    """The name of a local, a global or a label."""
    name = token.text[:-1] if token.kind == "label" else token.text[1:]
    return unescaped(name[1:-1]) if name.startswith('"') else name


def is_dropped(line):
    """Whether a line is dropped for its first token, or since it calls or declares a note."""
    first = line[0]
    if first.kind == "meta" or (first.kind == "hash" and first.text.startswith("#dbg_")):
        return True
    if first.kind == "word" and (first.text in DROPPED_LINES or first.text.startswith("$")):
        return True
    name = next((name_of(token) for token in line if token.kind == "global"), "")
    return is_word(first, DROPPED_CALLS) and (name == "llvm.assume" or name.startswith(("llvm.dbg.", "llvm.lifetime.")))


def group_end(toks, at):
    """The number of the token after the group that begins at a token; that token's own where none begins."""
    if at == len(toks) or toks[at].text != "(":
        return at
    depth = 0
    for number in range(at, len(toks)):
        depth += (toks[number].text == "(") - (toks[number].text == ")")
        if depth == 0:
            return number + 1
    return len(toks)


def without(toks, dropped):
    """The tokens without those that go. `dropped` says how many go at a token, and whether a comma before them does."""
    kept, at = [], 0
    while at < len(toks):
        count, with_comma = dropped(toks, at)
        if count == 0:
            kept.append(toks[at])
            at += 1
            continue
        if with_comma and kept and at and kept[-1] is toks[at - 1] and kept[-1].text == ",":
            kept.pop()
        at += count
    return kept


def drop_metas(toks, at):
    return 2 * (len(toks) > at + 1 and toks[at].kind == toks[at + 1].kind == "meta"), True


def drop_align(toks, at):
    if not is_word(toks[at], ("align",)):
        return 0, False
    is_number = at + 1 < len(toks) and toks[at + 1].kind == "int"
    end = at + 2 if is_number else group_end(toks, at + 1)
    return (end - at if end > at + 1 else 0), True


def drop_hash(toks, at):
    return int(toks[at].kind == "hash"), False


def drop_group_word(toks, at):
    end = group_end(toks, at + 1) if is_word(toks[at], GROUP_WORDS) else at
    return end - at, toks[at].text == "comdat"


def drop_quiet_word(toks, at):
    return int(is_word(toks[at], QUIET_WORDS)), False


def kept_tokens(text):
    """The tokens of a text that are kept."""
    lines = []
    for token in tokens(text):
        if token.first:
            lines.append([])
        lines[-1].append(token)
    toks = [token for line in lines if not is_dropped(line) for token in line]
    for dropped in (drop_metas, drop_align, drop_hash, drop_group_word, drop_quiet_word):
        toks = without(toks, dropped)
    return toks


# The grammar.


class Reader:
    """The kept tokens of a text, and how far they are read."""

    def __init__(self, text):
        self.toks, self.at, self.end = kept_tokens(text), 0, len(text)

    def here(self):
        """The offset of the next token."""
        return self.toks[self.at].at if self.at < len(self.toks) else self.end

    def is_next(self, kind, *texts, ahead=0):
        """Whether the next token is of a kind, and is spelled in one of these ways where some are given."""
        if self.at + ahead >= len(self.toks):
            return False
        token = self.toks[self.at + ahead]
        return token.kind == kind and (not texts or token.text in texts)

    def take(self, kind, *texts):
        """Reads such a token, and returns its spelling."""
        if not self.is_next(kind, *texts):
            raise NoModule(self.here())
        self.at += 1
        return self.toks[self.at - 1].text

    def take_if(self, kind, *texts):
        return self.is_next(kind, *texts) and self.take(kind, *texts)

    def name(self, kind):
        self.take(kind)
        return name_of(self.toks[self.at - 1])

    def number(self):
        return int(self.take("int"))

    def label(self):
        self.take("word", "label")
        return self.name("local")

    def listed(self, end, one):
        """Parts with commas between them up to a mark; there may be none."""
        parts = []
        while not (not parts and self.is_next("punct", end)):
            parts.append(one())
            if not self.take_if("punct", ","):
                break
        self.take("punct", end)
        return parts

    def ty(self):
        """A type."""
        if self.is_next("local"):
            return ("named", self.name("local"))
        if self.take_if("punct", "["):
            count = self.number()
            if not 0 <= count < 2**64:
                raise NoModule(self.toks[self.at - 1].at)
            self.take("word", "x")
            element = self.ty()
            self.take("punct", "]")
            return ("array", count, element)
        if (structure := self.structure(self.ty)) is not None:
            packed, fields = structure
            return ("struct", packed, tuple(fields))
        for word, ty in (("ptr", PTR), ("void", VOID)):
            if self.take_if("word", word):
                return ty
        return ("i", int(self.take("word", *INTEGER_TYPES)[1:]))

    def structure(self, part):
        """Whether a structure is packed, and its parts, each as `part` reads it; or none where none begins."""
        packed = bool(self.take_if("punct", "<"))
        if not packed and not self.is_next("punct", "{"):
            return None
        self.take("punct", "{")
        parts = self.listed("}", part)
        if packed:
            self.take("punct", ">")
        return packed, parts

    def typed_const(self):
        return self.ty(), self.const()

    def typed_value(self):
        return self.ty(), self.value()

    def const(self):
        """A constant."""
        if self.is_next("int"):
            return ("int", self.number())
        if self.is_next("text"):
            return ("text", len(unescaped(self.take("text")[2:-1])))
        if self.is_next("global"):
            return ("global", self.name("global"))
        if self.take_if("punct", "["):
            return ("array", self.listed("]", self.typed_const))
        if (structure := self.structure(self.typed_const)) is not None:
            return ("struct", *structure)
        word = self.take("word", *CONSTANT_WORDS)
        if word == "getelementptr":
            return self.address()
        return ({"true": "bool", "false": "bool", "null": "null"}.get(word, "any"),)

    def address(self):
        """A constant address, after its word."""
        self.flags("inbounds", "nuw")
        self.take("punct", "(")
        ty = self.ty()
        self.take("punct", ",")
        first, *rest = self.listed(")", self.typed_const) or [None]
        if first is None:
            raise NoModule(self.here())
        return ("address", ty, first, rest)

    def begins_value(self):
        marks = self.is_next("punct", "[", "{", "<") or self.is_next("word", *CONSTANT_WORDS)
        return marks or any(map(self.is_next, ("local", "int", "text", "global")))

    def value(self):
        return ("local", self.name("local")) if self.is_next("local") else self.const()

    def flags(self, *words):
        while self.take_if("word", *words):
            pass

    def two(self, ty):
        """Two operands of a type."""
        first = self.value()
        self.take("punct", ",")
        return [(ty, first), (ty, self.value())]

    def more(self, one):
        """Parts with a comma before each; there may be none."""
        parts = []
        while self.take_if("punct", ","):
            parts.append(one())
        return parts

    def read_phi(self, inst):
        ty = self.ty()

        def incoming():
            self.take("punct", "[")
            value = self.value()
            self.take("punct", ",")
            inst.labels.append(self.name("local"))
            self.take("punct", "]")
            return ty, value

        inst.operands = [incoming(), *self.more(incoming)]

    def read_operation(self, inst):
        """What follows the word of an operation, a comparison or a conversion."""
        if inst.word in (*WRAPPING, "trunc"):
            self.flags("nuw", "nsw")
        elif inst.word in EXACT:
            self.take_if("word", "exact")
        elif inst.word == "icmp":
            self.take("word", *PREDICATES)
        ty = self.ty()
        if inst.word in CONVERSIONS:
            inst.operands = [(ty, self.value())]
            self.take("word", "to")
            inst.ty = self.ty()
        else:
            inst.operands = self.two(ty)

    def read_alloca(self, inst):
        inst.ty = self.ty()
        if self.take_if("punct", ","):
            self.ty()
            inst.count = self.number()

    def read_memory(self, inst):
        """What follows `load`, `store`, `select`, `freeze` or `getelementptr`."""
        if inst.word == "getelementptr":
            self.flags("inbounds", "nuw")
        if inst.word in ("load", "getelementptr"):
            inst.ty = self.ty()
            self.take("punct", ",")
        inst.operands = [self.typed_value()]
        for _ in range({"store": 1, "select": 2}.get(inst.word, 0)):
            self.take("punct", ",")
            inst.operands.append(self.typed_value())
        if inst.word == "getelementptr":
            inst.operands += self.more(self.typed_value)

    def read_call(self, inst):
        inst.ty, inst.callee = self.ty(), self.name("global")
        self.take("punct", "(")
        inst.operands = self.listed(")", self.typed_value)

    def read_term(self, inst):
        if inst.word == "br" and self.is_next("word", "label"):
            inst.labels = [self.label()]
        elif inst.word in ("br", "switch"):
            inst.operands = [self.typed_value()]
            self.take("punct", ",")
            inst.labels = [self.label()]
            if inst.word == "br":
                self.take("punct", ",")
                inst.labels.append(self.label())
            else:
                self.read_cases(inst)
        elif inst.word == "ret":
            ty = self.ty()
            if ty != VOID or self.begins_value():
                inst.operands = [(ty, self.value())]

    def read_cases(self, inst):
        self.take("punct", "[")
        while not self.take_if("punct", "]"):
            inst.cases.append((self.ty(), self.number()))
            self.take("punct", ",")
            inst.labels.append(self.label())

    def inst(self, may_be_phi):
        """An instruction of a block, the last one too."""
        at, result = self.here(), None
        if self.is_next("local"):
            result = self.name("local")
            self.take("punct", "=")
        terms = () if result is not None else TERMINATORS
        word = self.take("word", *(("phi",) if may_be_phi else ()), *INSTRUCTIONS, *terms)
        inst = Inst(at, result, word)
        if word == "phi":
            self.read_phi(inst)
        elif word in BINARY or word in CONVERSIONS or word == "icmp":
            self.read_operation(inst)
        elif word in TERMINATORS:
            self.read_term(inst)
        else:
            {"alloca": self.read_alloca, "call": self.read_call}.get(word, self.read_memory)(inst)
        return inst

    def block(self, name):
        insts = []
        while not insts or insts[-1].word not in TERMINATORS:
            insts.append(self.inst(may_be_phi=all(inst.word == "phi" for inst in insts)))
        return Block(name, insts)

    def param(self):
        ty = self.ty()
        return ty, self.name("local") if self.is_next("local") else None

    def function(self, item):
        """What follows `declare` or `define`."""
        item.ty, item.name = self.ty(), self.name("global")
        self.take("punct", "(")
        params = self.listed(")", self.param)
        item.params, item.param_names = [ty for ty, _ in params], [name for _, name in params]
        if item.word == "declare":
            return
        self.take("punct", "{")
        numbered = [name for name in item.param_names if name is None or re.fullmatch("[0-9]+", name)]
        first = self.name("label") if self.is_next("label") else str(len(numbered))
        item.blocks = [self.block(first)]
        while not self.take_if("punct", "}"):
            item.blocks.append(self.block(self.name("label")))

    def item(self):
        item = Item(self.here(), "", "", VOID)
        if self.is_next("local"):
            item.name = self.name("local")
            self.take("punct", "=")
            item.word, item.ty = self.take("word", "type"), self.ty()
        elif self.is_next("global"):
            item.name = self.name("global")
            self.take("punct", "=")
            self.take("word", "global", "constant")
            item.word, item.ty, item.value = "global", self.ty(), self.const()
        else:
            item.word = self.take("word", "declare", "define")
            self.function(item)
        return item


def read_items(text):
    """The items of a text, in its order; each of its characters is a byte."""
    reader = Reader(text)
    items = []
    while reader.at < len(reader.toks):
        items.append(reader.item())
    return items
