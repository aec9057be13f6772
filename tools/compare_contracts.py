#!/usr/bin/env python3
"""Sets public functions, types and definitions of a commit beside those of the working tree.

    python3 tools/compare_contracts.py COMMIT

Prints Markdown: for each crate the public functions whose header or clauses differ, those that are
gone and those that are new, with the clauses of each; then the ghost members of impls and traits, the
structs, enums, traits, constants and aliases, and the definitions and theorems in specs/ by their text.
Functions are told apart by crate, impl and name. `pub` is read as it stands, also in a module that is
private to its crate.
"""
import re
import subprocess
import sys


def git(*args):
    return subprocess.run(["git", *args], capture_output=True, text=True, check=True).stdout


def read(commit, pattern):
    listed = git("ls-tree", "-r", "--name-only", commit, "crates") if commit else git("ls-files", "crates")
    for name in listed.split():
        if re.search(pattern, name):
            yield name, git("show", f"{commit}:{name}") if commit else open(name).read()


def squeeze(text):
    return re.sub(r"\s+", " ", text).strip()


def items(text):
    """Top-level items and members of impls: (owner, text up to the body)."""
    owner = ""
    lines = text.split("\n")
    i = 0
    while i < len(lines):
        line = lines[i]
        if line.startswith("#[cfg(test)]"):
            return
        head = re.match(r"(?:pub )?(?:impl|trait)\b(.*?)\{?$", line)
        if head and not line.startswith(" "):
            owner = squeeze(line.rstrip("{"))
        if line == "}":
            owner = ""
        if re.match(r"\s*(?:pub(?:\(crate\))? )?(?:const )?fn ", line):
            head = [line]
            while not re.search(r"\{$|;$|^\{\}$", head[-1].strip()):
                i += 1
                head.append(lines[i])
            yield owner, squeeze("\n".join(head)).rstrip("{};").strip()
        i += 1


def ghosts(commit):
    """Ghost members of traits and impls, an invariant of a Model among them."""
    found = {}
    for name, text in read(commit, r"/src/.*\.rt$"):
        crate = name.split("/")[1]
        for owner, body in re.findall(r"^((?:pub )?(?:impl|trait)\b[^\n]*) \{\n(.*?)^\}", text, re.M | re.S):
            short = re.sub(r"^(?:pub )?(?:impl(?:<.*?>)? |trait )", "", owner)
            for member in re.findall(r"^    ghost (?!use)\w+[: ][^\n]*;$|^    ghost (?!use)\w+ = [^;]*\n.*?^    \} \};$", body, re.M | re.S):
                found[crate, short, member.split()[1].rstrip(":")] = squeeze(member)
    return found


def functions(commit):
    found = {}
    for name, text in read(commit, r"/src/.*\.rt$"):
        crate = name.split("/")[1]
        for owner, head in items(text):
            is_public = head.startswith("pub fn") or owner.startswith("pub trait") or " for " in owner
            if is_public:
                fn = re.search(r"fn (\w+)", head).group(1)
                short = re.sub(r"^(?:pub )?(?:impl(?:<.*?>)?|trait) ", "", owner)
                found[crate, short, fn] = head
    return found


def types(commit):
    found = {}
    for name, text in read(commit, r"/src/.*\.rt$"):
        crate = name.split("/")[1]
        for body in re.findall(r"(?:^#\[derive[^\n]*\]\n)?^pub (?:struct|enum|trait) \w+[^;{]*(?:;|\{.*?^\})", text, re.M | re.S):
            kind = re.search(r"pub (?:struct|enum|trait) (\w+)", body).group(1)
            code = re.sub(r"//.*", "", body)
            if "trait " in code:
                code = re.sub(r"fn .*", "", code, flags=re.S)
            found[crate, "", kind] = squeeze(code)
        for alias in re.findall(r"^pub (?:const|type) .*?;", text, re.M | re.S):
            found[crate, "", alias.split()[2].rstrip(":")] = squeeze(alias)
    return found


def definitions(commit):
    found = {}
    for name, text in read(commit, r"/specs/.*\.antt$"):
        crate = name.split("/")[1]
        code = re.sub(r"^--.*\n", "", text, flags=re.M)
        for block in re.split(r"\n\n+", code):
            head = re.match(r"(?:abbrev |unfoldable )*pub (?:record )?([^\s:({]+)", block.strip())
            if head and not block.strip().startswith("pub mod"):
                found[crate, "", head.group(1)] = squeeze(block)
    return found


def cell(text):
    return "`" + text.replace("|", "\\|") + "`" if text else ""


def compare(title, old, new):
    print(f"### {title}\n\n| crate | old | new |\n|---|---|---|")
    for key in sorted(set(old) | set(new)):
        before, after = old.get(key, ""), new.get(key, "")
        if before != after:
            owner = f" {key[1]}" if key[1] else ""
            print(f"| {key[0]}{owner} | {cell(before) or 'none'} | {cell(after) or 'gone'} |")
    print()


def main():
    old = sys.argv[1]
    compare("Public functions and their clauses", functions(old), functions(None))
    compare("Ghost members of traits and impls, invariants among them", ghosts(old), ghosts(None))
    compare("Public types and constants", types(old), types(None))
    compare("Definitions and theorems in specs/", definitions(old), definitions(None))


main()
