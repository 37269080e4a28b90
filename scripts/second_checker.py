#!/usr/bin/env python3
"""Says whether the names and types of texts are right, by a second statement of the rules, apart from the program's.

usage: scripts/second_checker.py FILE..

Prints `ok` for a text, or `name N` or `typing N`: the offset of the first item or instruction that breaks a rule on names,
or else of the first that breaks a rule on types. Where a text has no module it prints `none N`, with the offset of a token
that no module has there. Each rule stands as a function of its own, and they are asked one after another; nothing is
fast here. Availability of values, limits and `main` are left out.
"""

import sys
from dataclasses import dataclass
from pathlib import Path

from second_reader import BINARY, CONVERSIONS, I1, I8, I32, PTR, VOID, Item, NoModule, read_items

MOST_SIZE = 1_073_741_824


class Module:
    """The items of a text, in its order."""

    def __init__(self, text):
        self.items = read_items(text)
        self.types = {item.name: item.ty for item in self.of("type")}
        self.layouts = {}

    def of(self, *words):
        return [item for item in self.items if item.word in words]

    def layout(self, ty):
        """The size and the alignment of a type, or None where it isn't sized."""
        if ty == VOID:
            return None
        if ty == PTR:
            return 8, 8
        if ty[0] == "i":
            size = next(size for size in (1, 2, 4, 8) if ty[1] <= 8 * size)
            return size, size
        if ty[0] == "named":
            if ty[1] not in self.layouts:
                # A type that is met again while its layout is made holds itself.
                self.layouts[ty[1]] = None
                self.layouts[ty[1]] = self.layout(self.types[ty[1]])
            return self.layouts[ty[1]]
        if ty[0] == "array":
            element = self.layout(ty[2])
            found = element and (ty[1] * element[0], element[1])
        else:
            found = self.struct_layout(ty[1], [self.layout(part) for part in ty[2]])
        return found if found and found[0] <= MOST_SIZE else None

    @staticmethod
    def struct_layout(packed, parts):
        if None in parts:
            return None
        end, greatest = 0, 1
        for size, align in parts:
            align = 1 if packed else align
            end, greatest = -(-end // align) * align + size, max(greatest, align)
        return -(-end // greatest) * greatest, greatest

    def is_sized(self, ty):
        return self.layout(ty) is not None

    def opened(self, ty):
        """The structure of a type: what a name that is sized stands for."""
        while ty[0] == "named" and self.is_sized(ty):
            ty = self.types[ty[1]]
        return ty


@dataclass
class Here:
    """Where an instruction stands."""

    module: Module
    function: Item
    is_entry: bool

    def results(self):
        return [inst for block in self.function.blocks for inst in block.insts if inst.result is not None]

    def type_of(self, name):
        """The type of a value of the function: of a parameter, or that which the instruction states that makes it."""
        for ty, param in zip(self.function.params, self.function.param_names):
            if param == name:
                return ty
        return result_type(next(inst for inst in self.results() if inst.result == name))


def result_type(inst):
    if inst.word == "icmp":
        return I1
    if inst.word in ("alloca", "getelementptr"):
        return PTR
    if inst.word in ("load", "call", *CONVERSIONS):
        return inst.ty
    return VOID if inst.word == "store" else inst.operands[1 if inst.word == "select" else 0][0]


# What is named in a type, a constant or an instruction.


def names_in_type(ty):
    if ty[0] == "named":
        return [ty[1]]
    parts = [ty[2]] if ty[0] == "array" else ty[2] if ty[0] == "struct" else []
    return [name for part in parts for name in names_in_type(part)]


def parts_of(value):
    """The types and the constants that stand right in a value."""
    if value[0] == "address":
        return [value[1]], [value[2], *value[3]]
    return [], value[-1] if value[0] in ("array", "struct") else []


def types_in(value):
    types, typed = parts_of(value)
    return types + [found for ty, part in typed for found in (ty, *types_in(part))]


def globals_in(value):
    if value[0] == "global":
        return [value[1]]
    return [name for _, part in parts_of(value)[1] for name in globals_in(part)]


def types_of(inst):
    """The types that an instruction names; that of an alloca's count isn't looked at."""
    stated = [inst.ty] if inst.ty else []
    stated += [ty for ty, _ in inst.operands] + [ty for ty, _ in inst.cases]
    return stated + [ty for _, value in inst.operands for ty in types_in(value)]


# Rules on names. Those of repeated names give offsets, the others say whether an item or an instruction keeps them.


def repeated_types(module):
    """Named types have distinct names: a later one of the same name is at fault."""
    types = module.of("type")
    return [later.at for number, later in enumerate(types) if later.name in [t.name for t in types[:number]]]


def repeated_globals(module):
    """So have globals and functions together; but a function may be declared again with the same types."""

    def is_again(earlier, later):
        same = earlier.word == later.word == "declare" and (earlier.ty, earlier.params) == (later.ty, later.params)
        return earlier.name == later.name and not same

    items = module.of("global", "declare", "define")
    return [later.at for number, later in enumerate(items) if any(is_again(earlier, later) for earlier in items[:number])]


def repeated_locals(module):
    """In a function parameters, labels and results have distinct names. The later of two is at fault: a result by
    itself, a parameter or a label by its function."""
    faults = []
    for function in module.of("define"):
        named = [(name, function.at) for name in function.param_names if name is not None]
        for block in function.blocks:
            named.append((block.name, function.at))
            named += [(inst.result, inst.at) for inst in block.insts if inst.result is not None]
        names = [name for name, _ in named]
        faults += [at for number, (name, at) in enumerate(named) if name in names[:number]]
    return faults


def item_types_are_there(module, item):
    """Each named type that an item names is there."""
    types = [item.ty, *item.params, *(types_in(item.value) if item.value else [])]
    return all(name in module.types for ty in types for name in names_in_type(ty))


def item_globals_are_there(module, item):
    """Each global that a global's constant names is there, and is a global."""
    return not item.value or set(globals_in(item.value)) <= {found.name for found in module.of("global")}


def types_are_there(here, inst):
    """Each named type that an instruction names is there."""
    return all(name in here.module.types for ty in types_of(inst) for name in names_in_type(ty))


def values_are_there(here, inst):
    """Each local operand is a parameter or a result of the function."""
    values = {*here.function.param_names, *(found.result for found in here.results())}
    return all(value[0] != "local" or value[1] in values for _, value in inst.operands)


def labels_are_there(here, inst):
    """Each label, and each label of a phi's input, is that of a block of the function."""
    return set(inst.labels) <= {block.name for block in here.function.blocks}


def globals_are_there(here, inst):
    """Each global in an operand is there, and is a global."""
    globals_ = {item.name for item in here.module.of("global")}
    return all(name in globals_ for _, value in inst.operands for name in globals_in(value))


def callee_is_there(here, inst):
    """What is called is a defined function but `main`, or `putchar` or `getchar` where they are declared."""
    defined = {item.name for item in here.module.of("define")} - {"main"}
    declared = {item.name for item in here.module.of("declare")} & {"putchar", "getchar"}
    return inst.word != "call" or inst.callee in defined | declared


# Rules on types.


def is_value_type(ty):
    return ty[0] == "i" or ty == PTR


def is_in_range(ty, number):
    """A number fits an integer type, as one with a sign or as one without."""
    return ty[0] == "i" and -(2 ** (ty[1] - 1)) <= number < 2 ** ty[1]


def can_step(module, ty, indices):
    """After the first, the indices lead into arrays and structures; into a structure leads an integer constant, below
    the number of its fields."""
    for _, index in indices[1:]:
        ty = module.opened(ty)
        if ty[0] == "array":
            ty = ty[2]
        elif ty[0] == "struct" and index[0] == "int" and 0 <= index[1] < len(ty[2]):
            ty = ty[2][index[1]]
        else:
            return False
    return True


def has_type(module, ty, value, in_global):
    """A constant has a type. In a global alone stand aggregates, and there alone `undef` and its like are of any type."""
    if value[0] == "int":
        return is_in_range(ty, value[1])
    if value[0] == "bool":
        return ty == I1
    if value[0] in ("null", "global"):
        return ty == PTR
    if value[0] == "any":
        return module.is_sized(ty) if in_global else is_value_type(ty)
    if value[0] == "address":
        return ty == PTR and is_address(module, *value[1:])
    if value[0] == "text":
        return module.opened(ty) == ("array", value[1], I8)
    return in_global and has_structure(module, module.opened(ty), value)


def has_structure(module, ty, value):
    """An aggregate has an opened type: part by part, each part of the type that is stated for it."""
    stated, wanted = [part for part, _ in value[-1]], None
    if value[0] == ty[0] == "array" and ty[1] == len(stated):
        wanted = [ty[2]] * ty[1]
    elif value[0] == ty[0] == "struct" and value[1] == ty[1]:
        wanted = list(ty[2])
    return stated == wanted and all(has_type(module, part, inner, True) for part, inner in value[-1])


def is_address(module, ty, pointer, indices):
    """A constant address steps from a global, or from another address, over a sized type, by integer constants."""
    based = pointer[0] == PTR and pointer[1][0] in ("global", "address") and has_type(module, *pointer, False)
    numbers = all(value[0] == "int" and is_in_range(part, value[1]) for part, value in indices)
    return based and numbers and module.is_sized(ty) and can_step(module, ty, indices)


def item_is_sized(module, item):
    """The type of a global or of a named type is sized."""
    return item.word not in ("type", "global") or module.is_sized(item.ty)


def global_has_type(module, item):
    """The constant of a global has its type."""
    return item.word != "global" or has_type(module, item.ty, item.value, True)


def signature_is_right(_, item):
    """Functions take integers and addresses, and return one of these or nothing."""
    return item.word in ("type", "global") or (
        (is_value_type(item.ty) or item.ty == VOID) and all(map(is_value_type, item.params))
    )


def input_and_output_are_right(_, item):
    """`putchar` is declared with `i32 (i32)`, and `getchar` with `i32 ()`."""
    wanted = {"putchar": (I32, [I32]), "getchar": (I32, [])}.get(item.name)
    return item.word != "declare" or wanted is None or (item.ty, item.params) == wanted


def memory_is_sized(here, inst):
    """What an alloca makes, a load or a store moves and an address steps over is of a sized type."""
    ty = inst.operands[0][0] if inst.word == "store" else inst.ty
    return inst.word not in ("alloca", "load", "store", "getelementptr") or here.module.is_sized(ty)


def alloca_is_small(here, inst):
    """An alloca's count isn't negative, and its whole size isn't too great."""
    layout = here.module.layout(inst.ty) if inst.word == "alloca" else None
    return not layout or (inst.count >= 0 and inst.count * layout[0] <= MOST_SIZE)


def alloca_is_in_entry(here, inst):
    """An alloca stands in the first block."""
    return inst.word != "alloca" or here.is_entry


def loads_and_stores_are_whole(_, inst):
    """Loads and stores are of `i8`, `i16`, `i32`, `i64` or `ptr`, as they are written."""
    ty = {"load": inst.ty, "store": inst.operands[0][0] if inst.operands else None}.get(inst.word, PTR)
    return ty in [PTR] + [("i", width) for width in (8, 16, 32, 64)]


def call_is_as_callee(here, inst):
    """The result and the arguments of a call have the types of its callee."""
    if inst.word != "call":
        return True
    callee = next(item for item in here.module.of("declare", "define") if item.name == inst.callee)
    return (callee.ty, callee.params) == (inst.ty, [ty for ty, _ in inst.operands])


def return_is_right(here, inst):
    """A `ret` returns the type of its function, and nothing where that is `void`."""
    stated = [ty for ty, _ in inst.operands]
    return inst.word != "ret" or stated == ([] if here.function.ty == VOID else [here.function.ty])


def values_have_types(here, inst):
    """Each operand has the type that is stated for it, and so has each case."""
    operands = all(
        here.type_of(value[1]) == ty if value[0] == "local" else has_type(here.module, ty, value, False)
        for ty, value in inst.operands
    )
    return operands and all(is_in_range(ty, number) for ty, number in inst.cases)


def stated_types_are_right(_, inst):
    """The stated types are of the kinds that the instruction needs."""
    types = [ty for ty, _ in inst.operands]
    if inst.word in BINARY or inst.word == "switch":
        return types[0][0] == "i"
    if inst.word in ("phi", "icmp", "freeze"):
        return is_value_type(types[0])
    if inst.word == "select":
        return types[0] == I1 and types[1] == types[2] and is_value_type(types[1])
    if inst.word == "br":
        return types in ([], [I1])
    if inst.word in ("load", "store"):
        return types[-1] == PTR
    if inst.word == "getelementptr":
        return types[0] == PTR and all(ty[0] == "i" for ty in types[1:])
    return True


def conversion_is_right(_, inst):
    """`zext` and `sext` make an integer wider, and `trunc` makes it narrower."""
    if inst.word not in CONVERSIONS:
        return True
    before, after = inst.operands[0][0], inst.ty
    return before[0] == after[0] == "i" and (after < before if inst.word == "trunc" else before < after)


def address_can_step(here, inst):
    """The indices of an address lead into its type."""
    return inst.word != "getelementptr" or can_step(here.module, inst.ty, inst.operands[1:])


def result_is_named_where_there_is_one(_, inst):
    """A store and a call of nothing give no result a name."""
    return inst.result is None or not (inst.word == "store" or (inst.word == "call" and inst.ty == VOID))


def cases_are_right(_, inst):
    """The cases of a switch have the type of its value, and are distinct numbers of that width."""
    if inst.word != "switch" or inst.operands[0][0][0] != "i":
        return True
    stated = inst.operands[0][0]
    numbers = [number % 2 ** stated[1] for _, number in inst.cases]
    return all(ty == stated for ty, _ in inst.cases) and len(set(numbers)) == len(numbers)


REPEATED = (repeated_types, repeated_globals, repeated_locals)
NAMES_OF_ITEMS = (item_types_are_there, item_globals_are_there)
NAMES_OF_INSTRUCTIONS = (types_are_there, values_are_there, labels_are_there, globals_are_there, callee_is_there)
TYPES_OF_ITEMS = (item_is_sized, global_has_type, signature_is_right, input_and_output_are_right)
TYPES_OF_INSTRUCTIONS = (
    memory_is_sized, alloca_is_small, alloca_is_in_entry, loads_and_stores_are_whole, call_is_as_callee, return_is_right,
    values_have_types, stated_types_are_right, conversion_is_right, address_can_step, result_is_named_where_there_is_one,
    cases_are_right,
)


def faults(module, of_items, of_instructions):
    """The rules that are broken, each with the offset of the item or the instruction that breaks it."""
    for item in module.items:
        for rule in of_items:
            if not rule(module, item):
                yield item.at, rule.__name__
        for number, block in enumerate(item.blocks):
            here = Here(module, item, number == 0)
            for inst in block.insts:
                for rule in of_instructions:
                    if not rule(here, inst):
                        yield inst.at, rule.__name__


def answer_and_rule(text):
    """The answer of a text, with the name of a rule that is broken at its place."""
    try:
        module = Module(text)
    except NoModule as error:
        return f"none {error}", None
    found = [(at, rule.__name__) for rule in REPEATED for at in rule(module)]
    found += faults(module, NAMES_OF_ITEMS, NAMES_OF_INSTRUCTIONS)
    if found:
        return f"name {min(found)[0]}", min(found)[1]
    found = list(faults(module, TYPES_OF_ITEMS, TYPES_OF_INSTRUCTIONS))
    return (f"typing {min(found)[0]}", min(found)[1]) if found else ("ok", None)


def answer(text):
    """`ok`, `name N`, `typing N` or `none N`; each character of the text is a byte."""
    return answer_and_rule(text)[0]


def main():
    for name in sys.argv[1:]:
        print(f"{name} -> {answer(Path(name).read_bytes().decode('latin-1'))}")


if __name__ == "__main__":
    main()
