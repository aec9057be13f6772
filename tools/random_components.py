#!/usr/bin/env python3
"""Random small components, and a comparison of a program with the model.

    python3 tools/random_components.py compare crates/admission_cases/out/admission_cases
        feeds the program many components in each run (its commands `case` and
        `packed`) and compares every outcome with tools/admission_model.py;
        20,000 components take less than a minute
    python3 tools/random_components.py each PROGRAM
        runs the program once for each component, with the packed file on its
        standard input, and compares the last line that it writes
    python3 tools/random_components.py write DIR
        writes the packed files, DIR/0.packed and so on
    python3 tools/random_components.py self-test
        checks that the model admits what is made to be admitted

    --count N    how many components (20000; for `each` and `write` 200)
    --seed S     another seed gives other components (1)
    --first K    starts with component K of the seed (0)

Component K of a seed is always the same, whatever else is asked for. Three in
ten are made to be admitted, the others are changed in one to three places, each
change one that is likely to break a rule. Fields without a use hold anything.
`compare` and `each` print how often each outcome came, how many were equal and
the first difference, write its packed file to difference.packed, and end with
status 1 where there is one.
"""

import argparse
import os
import random
import struct
import subprocess
import sys
from collections import Counter

sys.dont_write_bytecode = True  # no folder __pycache__ beside the tools

from admission_model import outcome_line  # noqa: E402

PLACE, SPREAD, HOLE = range(3)
OTHER, LOAD_LOCAL, FUNCTION, CALL, METHOD_CALL, ARRAY, LOAD_GLOBAL = range(7)
WITH_SUBJECT = (LOAD_LOCAL, CALL, METHOD_CALL)
WITH_ARGUMENTS = (CALL, METHOD_CALL, ARRAY)
BATCH = 1000


class Record:
    """A record's fields by name; a list is a pair [start, count]."""

    def __init__(self, **fields):
        self.__dict__.update(fields)

    def copy(self):
        return Record(
            **{k: list(v) if isinstance(v, list) else v for k, v in vars(self).items()}
        )


class Panel:
    def __init__(self):
        self.kind = 0
        self.text = bytearray()
        self.names = []
        self.values = []
        self.functions = []
        self.blocks = []
        self.predecessors = []
        self.phis = []
        self.instructions = []
        self.mentions = []

    def tables(self):
        return [
            self.names,
            self.values,
            self.functions,
            self.blocks,
            self.predecessors,
            self.phis,
            self.instructions,
            self.mentions,
        ]

    def packed(self):
        counts = [len(table) for table in self.tables()]
        file = [struct.pack("<2s10H", b"PC", *counts, len(self.text), self.kind)]

        def put(mark, layout, *fields):
            file.append(mark + struct.pack("<" + layout, *fields))

        for r in self.names:
            put(b"NM", "2H", *r.part)
        for r in self.values:
            put(b"VA", "3H2I", r.form, r.name, r.type, r.start, r.end)
        for r in self.functions:
            put(b"FN", "4H", *r.params, *r.blocks)
        for r in self.blocks:
            lists = r.predecessors + r.phis + r.instructions
            put(b"BL", "9H", r.id, *lists, r.returns, r.returned)
        for r in self.predecessors:
            put(b"PR", "H", r.id)
        for r in self.phis:
            put(b"PH", "3H", r.value, *r.operands)
        for r in self.instructions:
            lists = r.lvalues + r.operands
            put(b"IN", "HI4H", r.kind, r.order, *lists)
            file.append(struct.pack("<4H", r.subject, *r.arguments, r.function))
        for r in self.mentions:
            fields = (r.value, r.form, r.effect, r.spanned, r.start, r.end)
            put(b"ME", "4H2I", *fields)
        return b"".join(file) + b"TX" + bytes(self.text)


# ---- components that are admitted ------------------------------------------


def anything(rng):
    """What a field without a use holds."""
    return rng.choice((0, 1, 7, rng.randrange(65536), 65535))


def any_list(rng, size):
    """A list inside a table of that size, often empty or at the end."""
    start = rng.choice((0, size, rng.randint(0, size)))
    return [start, rng.choice((0, size - start, rng.randint(0, size - start)))]


def place_list(rng, mentions, least):
    """A list of at most 32 places; None where there is none long enough."""
    size = len(mentions)
    starts = [n for n in range(size) if mentions[n].form == PLACE]
    if least > 0 and not starts:
        return None
    if least == 0 and (not starts or rng.random() < 0.3):
        return [rng.randint(0, size), 0]
    start = rng.choice(starts)
    most = 1
    while most < 32 and start + most < size and mentions[start + most].form == PLACE:
        most += 1
    return [start, rng.choice((most, rng.randint(1, most)))]


def cut_in_order(rng, size, parts):
    """Lists that follow each other from 0 up to the size."""
    cuts = sorted(rng.randint(0, size) for _ in range(parts - 1))
    starts = [0] + cuts
    return [[a, b - a] for a, b in zip(starts, cuts + [size])]


def add_names(rng, panel):
    """Names that are all different, some of them parts of each other."""
    seen = set()
    for _ in range(rng.randint(0, 6)):
        length = rng.choice((1, 1, 2, 2, 3, 4, 63, 64))
        name = bytes(rng.choice(b"ab") for _ in range(length))
        if rng.random() < 0.05:
            name = bytes(rng.randrange(256) for _ in range(length))
        if name in seen:
            continue
        seen.add(name)
        start = panel.text.find(name) if rng.random() < 0.5 else -1
        if start < 0:
            start = len(panel.text)
            panel.text += name
        panel.names.append(Record(part=[start, length]))


def random_value(rng, panel):
    form = rng.randint(0, 2) if panel.names else 0
    name = rng.randrange(len(panel.names)) if form else anything(rng)
    orders = sorted(rng.randrange(20) for _ in range(2))
    return Record(
        form=form, name=name, type=rng.randrange(5), start=orders[0], end=orders[1]
    )


def random_mention(rng, panel):
    form = rng.choice((PLACE,) * 6 + (SPREAD, HOLE)) if panel.values else HOLE
    hole = form == HOLE
    return Record(
        form=form,
        value=anything(rng) if hole else rng.randrange(len(panel.values)),
        effect=anything(rng) if hole else rng.randrange(8),
        spanned=anything(rng) if hole else rng.randrange(2),
        start=rng.randrange(100),
        end=rng.randrange(100),
    )


def random_instruction(rng, panel, bodies):
    """`bodies` are the functions that are still free to be one."""
    mentions = panel.mentions
    kind = rng.randrange(7)
    if kind == FUNCTION and not bodies:
        kind = OTHER
    subject, function = anything(rng), anything(rng)
    arguments = [anything(rng), anything(rng)]
    if kind in WITH_SUBJECT:
        subject = place_list(rng, mentions, 1)[0]
    if kind in WITH_ARGUMENTS:
        arguments = any_list(rng, len(mentions))
    if kind == FUNCTION:
        function = bodies.pop(rng.randrange(len(bodies)))
    return Record(
        kind=kind,
        order=rng.randrange(50),
        lvalues=place_list(rng, mentions, 1),
        operands=place_list(rng, mentions, 0),
        subject=subject,
        arguments=arguments,
        function=function,
    )


def random_phi(rng, panel):
    return Record(
        value=rng.randrange(len(panel.values)),
        operands=place_list(rng, panel.mentions, 0),
    )


def admitted_panel(rng):
    panel = Panel()
    panel.kind = rng.randrange(3)
    add_names(rng, panel)
    panel.values = [random_value(rng, panel) for _ in range(rng.choice((0, 1, 3, 5, 7)))]
    many = rng.random() < 0.2
    for _ in range(rng.randint(34, 45) if many else rng.choice((0, 2, 6, 10, 14))):
        panel.mentions.append(random_mention(rng, panel))
    if many and panel.values:
        for mention in panel.mentions[1:]:
            mention.form, mention.effect, mention.spanned = PLACE, 2, 0
            mention.value = rng.randrange(len(panel.values))
    panel.predecessors = [Record(id=anything(rng)) for _ in range(rng.randint(0, 6))]

    functions, blocks = rng.randint(1, 5), rng.choice((0, 1, 2, 3, 5, 8))
    if blocks and panel.values:
        panel.phis = [random_phi(rng, panel) for _ in range(rng.randint(0, 6))]
    if blocks and place_list(rng, panel.mentions, 1):
        bodies = list(range(1, functions))
        for _ in range(rng.choice((0, 2, 5, 9, 14))):
            panel.instructions.append(random_instruction(rng, panel, bodies))
    for own in cut_in_order(rng, blocks, functions):
        params = any_list(rng, len(panel.mentions))
        panel.functions.append(Record(params=params, blocks=own))
    if blocks:
        lists = zip(
            cut_in_order(rng, len(panel.phis), blocks),
            cut_in_order(rng, len(panel.instructions), blocks),
        )
        panel.blocks = [random_block(rng, panel, *own) for own in lists]
    return panel


def random_block(rng, panel, phis, instructions):
    returns = rng.randrange(2) if panel.values else 0
    return Record(
        id=rng.choice((0, 1, 2, 65535)),
        predecessors=any_list(rng, len(panel.predecessors)),
        phis=phis,
        instructions=instructions,
        returns=returns,
        returned=rng.randrange(len(panel.values)) if returns else anything(rng),
    )


# ---- changes that are likely to break a rule -------------------------------


def number_fields(panel):
    """Each number that is used: its record, its field, the size of its table."""
    for r in panel.values:
        if r.form:
            yield r, "name", len(panel.names)
    for r in panel.blocks:
        if r.returns:
            yield r, "returned", len(panel.values)
    for r in panel.phis:
        yield r, "value", len(panel.values)
    for r in panel.instructions:
        if r.kind in WITH_SUBJECT:
            yield r, "subject", len(panel.mentions)
        if r.kind == FUNCTION:
            yield r, "function", len(panel.functions)
    for r in panel.mentions:
        if r.form != HOLE:
            yield r, "value", len(panel.values)


def list_fields(panel):
    """Each list that is used, with the size of its table."""
    for r in panel.functions:
        yield r.params, len(panel.mentions)
        yield r.blocks, len(panel.blocks)
    for r in panel.blocks:
        yield r.predecessors, len(panel.predecessors)
        yield r.phis, len(panel.phis)
        yield r.instructions, len(panel.instructions)
    for r in panel.phis:
        yield r.operands, len(panel.mentions)
    for r in panel.instructions:
        yield r.lvalues, len(panel.mentions)
        yield r.operands, len(panel.mentions)
        if r.kind in WITH_ARGUMENTS:
            yield r.arguments, len(panel.mentions)


def one_of(rng, choices):
    choices = list(choices)
    return rng.choice(choices) if choices else None


def change_number(rng, panel):
    picked = one_of(rng, number_fields(panel))
    if picked:
        record, field, size = picked
        highest = max(size - 1, 0)
        setattr(record, field, rng.choice((size, size, size + 1, highest, 65535)))


def change_list(rng, panel):
    picked = one_of(rng, list_fields(panel))
    if picked:
        a_list, size = picked
        start, count = a_list
        a_list[:] = rng.choice(
            (
                [start + 1, count],
                [max(start - 1, 0), count],
                [start, count + 1],
                [start, max(count - 1, 0)],
                [start, 0],
                [size, 0],
                [size + 1, 0],
                [max(size - 1, 0), 2],
                [start, max(size - start, 0) + rng.randrange(2)],
                [65535, rng.choice((0, 1, size + 1, 65535))],
            )
        )
        a_list[:] = [min(n, 65535) for n in a_list]


def change_order(rng, panel):
    """A list that has to follow another, moved or shortened inside its table."""
    ordered = [(r.blocks, len(panel.blocks)) for r in panel.functions]
    ordered += [(r.phis, len(panel.phis)) for r in panel.blocks]
    ordered += [(r.instructions, len(panel.instructions)) for r in panel.blocks]
    picked = one_of(rng, (own for own in ordered if own[1]))
    if picked:
        a_list, size = picked
        start, count = a_list
        start = min(max(start + rng.choice((-1, 0, 0, 1)), 0), size)
        count = max(count + rng.choice((-2, -1, -1, 0, 1)), 0)
        a_list[:] = [start, min(count, size - start)]


def change_form(rng, panel):
    mention = one_of(rng, panel.mentions)
    if mention:
        mention.form = rng.randrange(3)
        mention.effect, mention.spanned = rng.randrange(8), rng.randrange(2)
        if panel.values and mention.value >= len(panel.values):
            mention.value = rng.randrange(len(panel.values))


def change_body(rng, panel):
    instruction = one_of(rng, panel.instructions)
    if instruction:
        taken = [r.function for r in panel.instructions if r.kind == FUNCTION]
        instruction.kind = FUNCTION
        instruction.function = rng.choice(taken * 3 + [0, rng.randrange(6)])


def change_places(rng, panel):
    """A list of 32 or 33, or of no lvalues."""
    record = one_of(rng, panel.phis + panel.instructions)
    if record:
        field = rng.choice([f for f in ("lvalues", "operands") if hasattr(record, f)])
        start = rng.choice((1, 2, len(panel.mentions)))
        setattr(record, field, [start, rng.choice((0, 32, 33))])


def change_name(rng, panel):
    name = one_of(rng, panel.names)
    if name:
        what = rng.randrange(4)
        if what == 0:
            name.part = [rng.randint(0, len(panel.text)), 0]
        elif what == 1:
            name.part = [len(panel.text), rng.choice((64, 65, 66))]
            panel.text += b"c" * 66
        elif what == 2:
            name.part = list(rng.choice(panel.names).part)
        else:
            other = rng.choice(panel.names).part
            name.part = [len(panel.text), other[1]]
            panel.text += panel.text[other[0] : other[0] + other[1]]


def change_table(rng, panel):
    """One record more, one less, or two exchanged."""
    table = one_of(rng, (table for table in panel.tables() if table))
    what = rng.randrange(4)
    if what == 0:
        table.append(rng.choice(table).copy())
    elif what == 1:
        table.pop()
    elif what == 2:
        a, b = rng.randrange(len(table)), rng.randrange(len(table))
        table[a], table[b] = table[b], table[a]
    else:
        table.pop(rng.randrange(len(table)))


def change_size(rng, panel):
    """A table that is at its limit or past it."""
    table, limit = rng.choice(
        (
            (panel.names, 2048),
            (panel.functions, 256),
            (panel.predecessors, 4096),
            (panel.blocks, 2048),
        )
    )
    if table:
        more = limit - len(table) + rng.randrange(2)
        table.extend(table[-1].copy() for _ in range(more))


CHANGES = (
    [change_number] * 16
    + [change_list] * 20
    + [change_order] * 40
    + [change_form] * 10
    + [change_body] * 24
    + [change_places] * 12
    + [change_name] * 20
    + [change_table] * 20
)


def random_panel(seed, number):
    rng = random.Random(f"{seed}:{number}")
    panel = admitted_panel(rng)
    changed = rng.random() < 0.7
    if changed:
        for _ in range(rng.choice((1, 1, 1, 2, 3))):
            if any(panel.tables()):
                rng.choice(CHANGES)(rng, panel)
        if rng.random() < 0.004 and any(panel.tables()):
            change_size(rng, panel)
    return panel, changed


# ---- comparing -------------------------------------------------------------


def batch_outcomes(program, files):
    commands = "".join(
        f"case {number}\npacked {file.hex()}\n" for number, file in files
    )
    ran = subprocess.run([program], input=commands.encode(), stdout=subprocess.PIPE)
    lines = ran.stdout.decode(errors="replace").splitlines()
    outcomes = dict(line.partition(": ")[::2] for line in lines)
    return [outcomes.get(str(number), "nothing") for number, _ in files]


def each_outcome(program, files):
    for _, file in files:
        ran = subprocess.run([program], input=file, stdout=subprocess.PIPE)
        lines = ran.stdout.decode(errors="replace").splitlines()
        yield lines[-1] if lines else "nothing"


def batches(seed, first, count):
    for start in range(first, first + count, BATCH):
        numbers = range(start, min(start + BATCH, first + count))
        yield [(number, *random_panel(seed, number)) for number in numbers]


def compare(outcomes_of, program, arguments):
    equal, seen, difference = 0, Counter(), None
    for batch in batches(arguments.seed, arguments.first, arguments.count):
        files = [(number, panel.packed()) for number, panel, _ in batch]
        for (number, file), got in zip(files, outcomes_of(program, files)):
            wanted = outcome_line(file)
            seen[wanted.split(" at ")[0]] += 1
            if got == wanted:
                equal += 1
            elif difference is None:
                difference = number, file, wanted, got
    for outcome, times in sorted(seen.items()):
        print(f"{outcome}: {times}")
    print(f"{equal} of {arguments.count} equal")
    if difference is None:
        return 0
    number, file, wanted, got = difference
    print(f"component {number} of seed {arguments.seed}: {got}, by the model {wanted}")
    with open("difference.packed", "wb") as opened:
        opened.write(file)
    return 1


def write(directory, arguments):
    os.makedirs(directory, exist_ok=True)
    for batch in batches(arguments.seed, arguments.first, arguments.count):
        for number, panel, _ in batch:
            with open(os.path.join(directory, f"{number}.packed"), "wb") as opened:
                opened.write(panel.packed())
    return 0


def self_test(arguments):
    """Whether what is made to be admitted is, and that the files are whole."""
    for batch in batches(arguments.seed, arguments.first, arguments.count):
        for number, panel, changed in batch:
            outcome = outcome_line(panel.packed())
            assert changed or outcome == "admitted", (number, outcome)
    return 0


def main():
    parser = argparse.ArgumentParser(
        description=__doc__, formatter_class=argparse.RawDescriptionHelpFormatter
    )
    parser.add_argument("what", choices=("compare", "each", "write", "self-test"))
    parser.add_argument("target", nargs="?", help="the program, or the folder")
    parser.add_argument("--count", type=int)
    parser.add_argument("--seed", type=int, default=1)
    parser.add_argument("--first", type=int, default=0)
    arguments = parser.parse_args()
    if arguments.count is None:
        arguments.count = 200 if arguments.what in ("each", "write") else 20000
    if arguments.what == "self-test":
        return self_test(arguments)
    if arguments.target is None:
        parser.error("a program or a folder is wanted")
    if arguments.what == "write":
        return write(arguments.target, arguments)
    outcomes_of = batch_outcomes if arguments.what == "compare" else each_outcome
    return compare(outcomes_of, arguments.target, arguments)


if __name__ == "__main__":
    sys.exit(main())
