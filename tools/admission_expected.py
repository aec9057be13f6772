#!/usr/bin/env python3
"""Prints what crates/admission_cases is expected to print.

It reads the same commands (they are listed in that crate's src/main.rt), packs
the statements of each case by itself, and asks tools/admission_model.py for the
outcome:

    cd crates/admission_cases
    python3 ../../tools/admission_expected.py < stdin > stdout

With `--pack` it packs one source instead, as `panelpack` does:

    python3 tools/admission_expected.py --pack < examples/rate.panel > rate.packed
"""

import struct
import sys

sys.dont_write_bytecode = True  # no folder __pycache__ beside the tools

from admission_model import outcome_line  # noqa: E402

# ---- packing a source (docs/SOURCE.md) -------------------------------------

MARKS = {
    "name": b"NM",
    "value": b"VA",
    "function": b"FN",
    "block": b"BL",
    "predecessor": b"PR",
    "phi": b"PH",
    "instruction": b"IN",
    "mention": b"ME",
}
PANELS = ["component", "hook", "other"]
FORMS = ["unnamed", "named", "promoted"]
TYPES = ["other", "use-state", "set-state", "use-ref", "effect-hook"]
KINDS = ["other", "load-local", "function", "call", "method-call", "array", "load-global"]
MENTIONS = ["place", "spread", "hole"]
EFFECTS = [
    "unknown",
    "freeze",
    "read",
    "capture",
    "mutate-iterator?",
    "mutate?",
    "mutate",
    "store",
]


class Words:
    def __init__(self, line):
        self.left = line.split()
        self.left.reverse()

    def more(self):
        return bool(self.left)

    def next(self):
        return self.left.pop()

    def number(self):
        return int(self.next())

    def code(self, words):
        word = self.next()
        return words.index(word) if word in words else int(word)

    def a_list(self, keyword):
        assert self.next() == keyword, keyword
        start, count = self.next().split("+")
        return int(start), int(count)

    def range(self):
        start, end = self.next().split("..")
        return int(start), int(end)


def value_fields(words):
    form = words.code(FORMS)
    name = words.number() if form != 0 else 0
    return struct.pack("<HHHII", form, name, words.code(TYPES), *words.range())


def function_fields(words):
    return struct.pack("<4H", *words.a_list("params"), *words.a_list("blocks"))


def block_fields(words):
    block_id = words.number()
    lists = words.a_list("preds") + words.a_list("phis") + words.a_list("instructions")
    returned = (0, 0)
    if words.more():
        assert words.next() == "return"
        returned = (1, words.number())
    return struct.pack("<9H", block_id, *lists, *returned)


def phi_fields(words):
    return struct.pack("<3H", words.number(), *words.a_list("operands"))


def instruction_fields(words):
    kind = words.code(KINDS)
    subject, args, function = 0, (0, 0), 0
    if kind in (1, 3, 4):
        subject = words.number()
    if kind in (3, 4, 5):
        args = words.a_list("args")
    if kind == 2:
        function = words.number()
    assert words.next() == "order"
    order = words.number()
    lists = words.a_list("lvalues") + words.a_list("operands")
    return struct.pack("<HI8H", kind, order, *lists, subject, *args, function)


def mention_fields(words):
    form = words.code(MENTIONS)
    if form == 2:
        return struct.pack("<4HII", 0, form, 0, 0, 0, 0)
    value, effect = words.number(), words.code(EFFECTS)
    spanned, span = (1, words.range()) if words.more() else (0, (0, 0))
    return struct.pack("<4HII", value, form, effect, spanned, *span)


FIELDS = {
    "value": value_fields,
    "function": function_fields,
    "block": block_fields,
    "predecessor": lambda words: struct.pack("<H", words.number()),
    "phi": phi_fields,
    "instruction": instruction_fields,
    "mention": mention_fields,
}


def pack(lines):
    """The packed file of a source's lines."""
    rows = {table: [] for table in MARKS}
    text = bytearray()
    panel = 0

    def run(words):
        nonlocal panel
        word = words.next()
        if word == "panel":
            panel = words.code(PANELS)
        elif word == "name":
            name = words.next().encode()
            rows["name"].append(struct.pack("<HH", len(text), len(name)))
            text.extend(name)
        elif word == "name-at":
            rows["name"].append(struct.pack("<HH", words.number(), words.number()))
        elif word == "text":
            text.extend(words.next().encode())
        elif word == "raw":
            table = words.next()
            fields = bytes(int(words.next(), 16) for _ in range(len(words.left)))
            if table == "text":
                text.extend(fields)
            else:
                rows[table].append(fields)
        else:
            rows[word].append(FIELDS[word](words))
        assert not words.more(), "words left over"

    for line in lines:
        statement = line.split("#")[0].strip()
        times = 1
        if statement.startswith("repeat "):
            _, times, statement = statement.split(None, 2)
        for _ in range(int(times)):
            if statement:
                run(Words(statement))
    counts = [len(records) for records in rows.values()]
    file = [b"PC", struct.pack("<10H", *counts, len(text), panel)]
    for table, records in rows.items():
        file.extend(MARKS[table] + fields for fields in records)
    return b"".join(file) + b"TX" + bytes(text)


# ---- the commands ----------------------------------------------------------


def expanded(statement):
    """The statements that one line of the base or behind `add` stands for."""
    if not statement.startswith("each "):
        return [statement]
    _, start, stop, pattern = statement.split(" ", 3)
    return [pattern.replace("@", str(n)) for n in range(int(start), int(stop))]


def table_of(statement):
    return statement.split(" ")[0].split("-")[0]


def place_of(statements, table, number):
    places = [k for k, line in enumerate(statements) if table_of(line) == table]
    return places[number]


def outcomes(commands):
    base, statements, title, in_source = [], [], "", False
    for line in commands:
        if not line or line.startswith("#"):
            continue
        command, _, rest = line.partition(" ")
        if in_source:
            if line == "end":
                in_source, base = False, list(statements)
            else:
                statements += expanded(line)
        elif command == "source":
            in_source, statements = True, []
        elif command == "case":
            title, statements = rest, list(base)
        elif command == "clear":
            statements = []
        elif command == "add":
            statements += expanded(rest)
        elif command in ("edit", "drop"):
            number, _, statement = rest.partition(" ")
            at = place_of(statements, table_of(statement), int(number))
            statements[at] = statement if command == "edit" else ""
        elif command == "admit":
            yield f"{title}: {outcome_line(pack(statements))}"
        elif command == "packed":
            yield f"{title}: {outcome_line(bytes.fromhex(rest))}"
        else:
            raise ValueError(f"no such command: {line}")


def main():
    if sys.argv[1:] == ["--pack"]:
        sys.stdout.buffer.write(pack(sys.stdin.read().splitlines()))
        return
    for line in outcomes(sys.stdin.read().splitlines()):
        print(line)


if __name__ == "__main__":
    main()
