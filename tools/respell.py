#!/usr/bin/env python3
"""Brings the names of this repository's own definitions and lemmas to the library's spelling.

usage: python3 tools/respell.py        at the top of the repository, once, after the kit's port.py

Types and facts are in upper camel case (`PackedFile`), everything else in snake case
(`fault_of`): a name with dashes or with a capital in the middle is turned wherever it
stands in specs/, in proofs/ and in the clauses and comments of src/, and between
backquotes in the documents. Texts in quotes, code and what Rattle names itself (the
facts behind `c.` in a proof) stay. Nothing is turned where two names would fall together.
"""

import glob
import re
import sys

DECLARED = re.compile(
    r"^\s*(?:(?:pub|abbrev|unfoldable|record|data|mutual)\s+)*([^\s():{}.;]+)\s*(?:\{[^}]*\}\s*|\([^)]*\)\s*)*:(?!:)\s"
)
BOUND = re.compile(r"\blet ([a-z][\w'-]*)|[(λ] ?([a-z][\w'-]*) :")
TOKEN = re.compile(r"[A-Za-z_][\w'-]*")
QUOTED = re.compile(r'"(?:[^"\\]|\\.)*"')
# words of the library's older names, as they stand inside names of ours
WORDS = {"getD": "get_or", "nth": "slice_get", "orOther": "option_or"}
ODD = {"get_d_part": "get_or_part"}


def antt_files():
    return sorted(glob.glob("crates/*/specs/**/*.antt", recursive=True) + glob.glob("crates/*/proofs/**/*.antt", recursive=True))


def rt_files():
    return sorted(glob.glob("crates/*/src/**/*.rt", recursive=True))


def read(path):
    with open(path, encoding="utf-8") as f:
        return f.read()


def names():
    """Each name that is declared or bound in specs/ and proofs/, but for the goals that Rattle names."""
    found = set()
    for path in antt_files():
        for line in read(path).split("\n"):
            m = DECLARED.match(line)
            if m and not re.search(r":\s*goal\.", line):
                found.add(m.group(1))
            for m in BOUND.finditer(line):
                found.add(m.group(1) or m.group(2))
    return found


def turned(name):
    if name in ODD:
        return ODD[name]
    parts = name.split("-")
    if name[0].isupper():
        return "".join(p[0].upper() + p[1:] for p in parts)
    words = [WORDS.get(p, p) for p in parts]
    return "_".join(re.sub(r"([a-z0-9])([A-Z])", r"\1_\2", w).lower() for w in words)


def apply(text, table):
    """The text with each name of the table turned, but for what stands in quotes or behind `c.`."""

    def name(m):
        if text_part.endswith("c.", 0, m.start()) and not re.search(r"[\w']c\.$", text_part[: m.start()]):
            return m.group()
        return table.get(m.group(), m.group())

    out, at = [], 0
    for q in list(QUOTED.finditer(text)) + [None]:
        text_part = text[at : q.start() if q else len(text)]
        out.append(TOKEN.sub(name, text_part))
        if q:
            out.append(q.group())
            at = q.end()
    return "".join(out)


def main():
    own = names()
    table = {n: turned(n) for n in own if re.search(r"[A-Za-z]-[A-Za-z]|[a-z][A-Z]", n) or n in ODD}
    table = {a: b for a, b in table.items() if a != b}
    fall = sorted(b for b in table.values() if list(table.values()).count(b) > 1 or b in own)
    if fall:
        sys.exit("respell: names would fall together: " + ", ".join(sorted(set(fall))))
    for path in antt_files() + rt_files():
        text = read(path)
        new = apply(text, table)
        if new != text:
            with open(path, "w", encoding="utf-8") as f:
                f.write(new)
    for path in sorted(glob.glob("docs/*.md") + ["README.md"]):
        text = read(path)
        new = re.sub(r"`([^`\n]+)`", lambda m: "`" + table.get(m.group(1), m.group(1)) + "`", text)
        if new != text:
            with open(path, "w", encoding="utf-8") as f:
                f.write(new)
    for a, b in sorted(table.items()):
        print(a, "→", b)


if __name__ == "__main__":
    main()
