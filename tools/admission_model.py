#!/usr/bin/env python3
"""Says whether a component is admitted, or with what it is refused.

This is an independent reading of docs/ADMISSION.md: it was written from the
rules, without a look at the program that is proved to follow them. It makes the
expected outcomes of crates/admission_cases (tools/admission_expected.py) and of
random components (tools/random_components.py).

    python3 tools/admission_model.py FILE..     packed files (docs/FORMAT.md)
    python3 tools/admission_model.py < FILE

It prints `admitted` or `refused N at P`, with `FILE: ` before it where there are
several files. A file is taken to be one that opens (docs/REFUSALS.md, no 5 to 7).
"""

import struct
import sys
from collections import namedtuple

# Records. A list is a pair (start, count).
Value = namedtuple("Value", "form name")
Function = namedtuple("Function", "params blocks")
Block = namedtuple("Block", "predecessors phis instructions returned")
Phi = namedtuple("Phi", "value operands")
Instruction = namedtuple("Instruction", "lvalues operands subject arguments function")
Mention = namedtuple("Mention", "form value")
Component = namedtuple(
    "Component",
    "names values functions blocks predecessors phis instructions mentions",
)

LIMITS = Component(
    names=2048,
    values=2048,
    functions=256,
    blocks=2048,
    predecessors=4096,
    phis=2048,
    instructions=8192,
    mentions=32768,
)

OPERANDS_MOST = 32
LVALUES_MOST = 32
NAME_MOST = 64

PLACE, SPREAD, HOLE = range(3)
LOAD_LOCAL, FUNCTION_EXPRESSION, CALL, METHOD_CALL, ARRAY = range(1, 6)


# ---- reading a packed file -------------------------------------------------


def read_component(file):
    """The component that a packed file holds. A field without a use is None."""
    counts = struct.unpack_from("<8H", file, 2)
    at = 22
    tables = []
    # Marks are skipped (2x), and so is what no rule asks for: a value's type
    # and range, a block's id, an instruction's order, a mention's effect and span.
    for layout, count in zip(
        (
            "<2xHH",
            "<2xHH10x",
            "<2x4H",
            "<4x8H",
            "<2xH",
            "<2x3H",
            "<2xH4x8H",
            "<2xHH12x",
        ),
        counts,
    ):
        size = struct.calcsize(layout)
        rows = [struct.unpack_from(layout, file, at + size * n) for n in range(count)]
        tables.append(rows)
        at += size * count
    text = file[at + 2 :]
    names, values, functions, blocks, predecessors, phis, instructions, mentions = tables
    return Component(
        names=[bytes(text[start : start + length]) for start, length in names],
        values=[Value(form, name if form != 0 else None) for form, name in values],
        functions=[Function((a, b), (c, d)) for a, b, c, d in functions],
        blocks=[
            Block((a, b), (c, d), (e, f), value if returns else None)
            for a, b, c, d, e, f, returns, value in blocks
        ],
        predecessors=[block_id for (block_id,) in predecessors],
        phis=[Phi(value, (a, b)) for value, a, b in phis],
        instructions=[read_instruction(row) for row in instructions],
        mentions=[
            Mention(form, None if form == HOLE else value) for value, form in mentions
        ],
    )


def read_instruction(row):
    kind, lvalues, lcount, operands, ocount, subject, arguments, acount, function = row
    return Instruction(
        lvalues=(lvalues, lcount),
        operands=(operands, ocount),
        subject=subject if kind in (LOAD_LOCAL, CALL, METHOD_CALL) else None,
        arguments=(arguments, acount) if kind in (CALL, METHOD_CALL, ARRAY) else None,
        function=function if kind == FUNCTION_EXPRESSION else None,
    )


# ---- the rules -------------------------------------------------------------


def outcome(component):
    """None where the component is admitted, else the refusal (number, place)."""
    for number, rule in (
        (1, table_size),
        (2, record_number),
        (3, list_order),
        (4, name_text),
    ):
        place = rule(component)
        if place is not None:
            return number, place
    return None


def first(records, fault):
    """The number of the first record for which `fault` holds, or None."""
    for n, record in enumerate(records):
        if fault(record):
            return n
    return None


def end(a_list):
    return a_list[0] + a_list[1]


# 1: a table has more records than its limit.


def table_size(component):
    for table, limit in zip(component, LIMITS):
        if len(table) > limit:
            return 0
    return None


# 2: a number outside its table, a wrong form, a list too long or too short.


def record_number(component):
    """The first fault of the tables, each asked for its own in turn."""

    def number_in(table, number):
        return number is None or number < len(table)

    def list_in(table, a_list):
        return a_list is None or end(a_list) <= len(table)

    def is_place(mention):
        return component.mentions[mention].form == PLACE

    def places(a_list, least, most):
        start, count = a_list
        return (
            list_in(component.mentions, a_list)
            and least <= count <= most
            and all(is_place(start + k) for k in range(count))
        )

    def value_ok(value):
        return number_in(component.names, value.name)

    def function_ok(function):
        return list_in(component.mentions, function.params) and list_in(
            component.blocks, function.blocks
        )

    def block_ok(block):
        return (
            list_in(component.predecessors, block.predecessors)
            and list_in(component.phis, block.phis)
            and list_in(component.instructions, block.instructions)
            and number_in(component.values, block.returned)
        )

    def phi_ok(phi):
        return number_in(component.values, phi.value) and places(
            phi.operands, 0, OPERANDS_MOST
        )

    def subject_ok(subject):
        return subject is None or (
            number_in(component.mentions, subject) and is_place(subject)
        )

    def instruction_ok(instruction):
        return (
            places(instruction.lvalues, 1, LVALUES_MOST)
            and places(instruction.operands, 0, OPERANDS_MOST)
            and subject_ok(instruction.subject)
            and list_in(component.mentions, instruction.arguments)
            and number_in(component.functions, instruction.function)
        )

    def mention_ok(mention):
        return number_in(component.values, mention.value)

    for table, record_ok in (
        (component.values, value_ok),
        (component.functions, function_ok),
        (component.blocks, block_ok),
        (component.phis, phi_ok),
        (component.instructions, instruction_ok),
        (component.mentions, mention_ok),
    ):
        if table is component.functions and not table:
            return 0
        place = first(table, lambda record: not record_ok(record))
        if place is not None:
            return place
    return None


# 3: lists that do not follow each other, rests, bodies that are taken twice.


def list_order(component):
    for fault in (function_order, block_order, phi_rest, instruction_order):
        place = fault(component)
        if place is not None:
            return place
    return None


def ended(records, list_of, n):
    """Where the lists of the records before n end; 0 where there is none."""
    return end(list_of(records[n - 1])) if n > 0 else 0


def last_end(records, list_of):
    return ended(records, list_of, len(records))


def breaks(records, list_of, n):
    """Whether record n's list starts elsewhere than where the one before ended."""
    return list_of(records[n])[0] != ended(records, list_of, n)


def function_order(component):
    functions = component.functions
    return first(
        range(len(functions)), lambda n: breaks(functions, lambda f: f.blocks, n)
    )


def block_order(component):
    blocks = component.blocks
    reached = last_end(component.functions, lambda f: f.blocks)
    return first(
        range(len(blocks)),
        lambda n: n >= reached
        or breaks(blocks, lambda b: b.phis, n)
        or breaks(blocks, lambda b: b.instructions, n),
    )


def phi_rest(component):
    reached = last_end(component.blocks, lambda b: b.phis)
    return first(range(len(component.phis)), lambda n: n >= reached)


def instruction_order(component):
    reached = last_end(component.blocks, lambda b: b.instructions)
    taken = {0}
    for n, instruction in enumerate(component.instructions):
        if n >= reached:
            return n
        if instruction.function is not None:
            if instruction.function in taken:
                return n
            taken.add(instruction.function)
    return None


# 4: a name's length, or a name that is like an earlier one.


def name_text(component):
    earlier = set()
    for n, name in enumerate(component.names):
        if not 1 <= len(name) <= NAME_MOST or name in earlier:
            return n
        earlier.add(name)
    return None


# ---- printing --------------------------------------------------------------


def outcome_line(file):
    refusal = outcome(read_component(file))
    if refusal is None:
        return "admitted"
    return "refused %d at %d" % refusal


def main(paths):
    if not paths:
        print(outcome_line(sys.stdin.buffer.read()))
    for path in paths:
        with open(path, "rb") as opened:
            line = outcome_line(opened.read())
        print(f"{path}: {line}" if len(paths) > 1 else line)


if __name__ == "__main__":
    main(sys.argv[1:])
