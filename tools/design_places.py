#!/usr/bin/env python3
"""Lists the places in src/ that an older form of Rattle would explain.

    python3 tools/design_places.py [COMMIT] [--list]

Reads crates/*/src of a commit, or of the working tree, and prints for each of the eight points of
docs/DESIGN-PASS.md how many places each pattern finds; with --list also the places. A place is
somewhere to look: the page says which of them stay and why.
"""
import collections
import re
import subprocess
import sys

PATTERNS = {
    1: {
        "None taken apart by a match arm": r"^\s*None => ",
        "Some or None by if and else": r"else \{ None \}|^\s*None$",
        "Ok or Err by if and else": r"^\s*Ok\(\(\)\)\n\s*\} else \{\n\s*Err\(",
        "a flag in a struct": r"^\s*(?:pub )?\w+: bool,|^\s*pub (?:returns|spanned): u16,",
        "a number for a kind: constant": r"^const \w+: u16 = \d+;",
        "a number for a kind: arm of a match": r"^\s*[\d| ]+ => ",
        "a number for a kind: compared": r"(?:kind|form)\w*(?:\(.*\))? == (?:\d+|[A-Z_]+\b|\w+::\w+ as)",
        "an Option that is an error": r"Option<Problem",
        "0 for nothing there": r"entry == 0|\(n \+ 1\) as u16",
    },
    3: {
        "for over numbers": r"\bfor \w+ in .*\.\.",
        "while": r"\bwhile\b",
        "a counter by hand": r"saturating_add\(1\)|\+= 1;",
    },
    4: {
        "conversion by a function": r"fn (?:number|function_type|value_type|effect|named|letters|records_at|parse\d+)\(",
        "words by a function": r"fn (?:\w*_word|word)\(",
        "printing by a function": r"fn push_(?:number|numbered|hex|char|bounds)\(|\.number\(\)",
        "bytes of a number by hand": r"\b(?:256|65536) \* ",
        "an entry or a default by hand": r"fn (?:pick|byte_at|number_at|is_taken|length_or_none|value_or_blank|same_byte)\b",
        "Debug by hand": r"impl.* fmt::Debug for",
    },
    6: {
        "an array": r": &?(?:mut )?\[[\w<>(), ]+; \w+\]|= \[[\w\d]+; \w+\]",
        "a count beside a buffer": r"^\s*pub count: u16,$",
    },
    7: {
        "a step chosen by a word": r"match (?:command|keyword|word) \{",
        "a step chosen by a table or record": r"match (?:table|record|self|statement) \{",
    },
}


def git(*args):
    return subprocess.run(["git", *args], capture_output=True, text=True, check=True).stdout


def read_files(commit):
    if commit:
        names = git("ls-tree", "-r", "--name-only", commit, "crates").split()
    else:
        names = git("ls-files", "crates").split()
    files = {}
    for name in names:
        if re.search(r"/src/.*\.rt$", name):
            files[name] = git("show", f"{commit}:{name}") if commit else open(name).read()
    return files


def places(files, pattern):
    for name, text in files.items():
        for found in re.finditer(pattern, text, re.M):
            yield f"{name}:{text.count(chr(10), 0, found.start()) + 1}"


def functions(text):
    """Each function's header, from its `fn` to its body."""
    return re.findall(r"^ *(?:pub )?fn \w+.*?^ *\{|^ *(?:pub )?fn .*\{$", text, re.M | re.S)


def facts(files):
    """Facts of `requires` clauses, by crate, that stand in three contracts or more."""
    found = collections.Counter()
    for name, text in files.items():
        crate = name.split("/")[1]
        for clause in re.findall(r"requires(?: \w+)? \{(.*)\}$", text, re.M):
            found[crate, re.sub(r"\.(?:now|old)\b", "", clause.strip())] += 1
    return {key: n for key, n in found.items() if n >= 3}


def groups(files):
    """Pairs of parameters that stand in three functions or more of a crate."""
    found = collections.Counter()
    for name, text in files.items():
        crate = name.split("/")[1]
        for header in re.findall(r"^ *(?:pub )?fn \w+(?:<[^(]*>)?\(([^)]*(?:\([^)]*\)[^)]*)*)\)", text, re.M):
            params = re.findall(r"(?:^|, |\n\s*)(?:mut )?(\w+): ", header)
            for i, a in enumerate(params):
                for b in params[i + 1:]:
                    found[crate, a, b] += 1
    return {key: n for key, n in found.items() if n >= 3}


def main():
    args = [a for a in sys.argv[1:] if a != "--list"]
    listing = "--list" in sys.argv
    files = read_files(args[0] if args else None)
    for point, patterns in PATTERNS.items():
        print(f"point {point}")
        for what, pattern in patterns.items():
            found = list(places(files, pattern))
            print(f"  {len(found):4}  {what}")
            if listing:
                for place in found:
                    print(f"          {place}")
    print("point 5")
    for (crate, fact), n in sorted(facts(files).items()):
        print(f"  {n:4}  {crate}: requires {fact}")
    for (crate, a, b), n in sorted(groups(files).items()):
        print(f"  {n:4}  {crate}: parameters {a}, {b}")


main()
