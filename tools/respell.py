#!/usr/bin/env python3
"""Brings the repository's own definitions and lemmas to one spelling, once.

usage: python3 tools/respell.py [--dry]     at the top of the repository

A definition, a lemma or a field is in snake case, a type or a fact in upper camel case. A dash joins two
names of definitions and stands nowhere else. Functions of src/, strings, inputs and outputs keep theirs.
With --dry it prints each pair and the names that would fall together, and writes nothing.
"""

import collections
import os
import re
import sys

# what a part of a lemma's name may be, besides a definition of the repository
STD = {"length", "take", "drop", "set", "append", "get_or", "map", "cond", "perm", "reverse", "decimal", "Has", "All"}
GOALS = ("Answers.antt", "Invariants.antt")
WORD = r"[^\s(){}\[\];,.@]+"
SIGNATURE = re.compile(r"\s*(?:(?:abbrev|pub|unfoldable|record|data)\s+)*(" + WORD + r") : ")
RECORD = re.compile(r"\s*(?:pub )?(?:record|data) (" + WORD + r") ")
# words that are also names of definitions, and stand for themselves in a lemma's name
PLAIN = {"at", "in", "not", "least", "by", "is", "on", "of", "or", "one", "none", "some", "all", "text", "word", "name", "read", "then", "end"}
# where one name would mean two things
APART = {"closed-by": "closed_by_lem", "by_name": "by_name_lem", "read-text": "read_text_lem"}
KEYWORDS = {"use", "let", "elim", "where", "mod", "in", "module", "mutual", "as", "λ", "→", "×", "record", "data", "abbrev", "pub"}


def files(*ends):
    for folder, dirs, names in os.walk("crates"):
        dirs[:] = sorted(d for d in dirs if d not in ("out", "data"))
        for name in sorted(names):
            if name.endswith(ends):
                yield os.path.join(folder, name)


def own():
    """Each own name with the files that declare it, and the names of definitions."""
    declared, definitions, imported = collections.defaultdict(set), set(STD), set()
    for path in files(".antt"):
        for line in open(path, encoding="utf-8"):
            found = RECORD.match(line) or SIGNATURE.match(line)
            outside = re.match(r"use (?:Rattle\.(?:std|core)|lib|mathlib|Prim|native|borrow)[^{]*\{(.*)\}", line)
            if outside:
                imported.update(re.split(r",\s*| as ", outside.group(1)))
            if not found or found.group(1) in KEYWORDS or line.lstrip().startswith("--"):
                continue
            name = found.group(1)
            if path.endswith(GOALS) and re.search(r":\s+goal\.", line):
                continue
            declared[name].add(path)
            if re.match(r"\s*(abbrev|pub abbrev|unfoldable|pub record|pub data|record|data)\b", line) or "/specs/" in path:
                definitions.add(name)
    return {n: p for n, p in declared.items() if n not in imported}, {snake(n) for n in definitions} | definitions


def snake(name):
    return re.sub(r"(?<=[a-z0-9])([A-Z])", lambda m: "_" + m.group(1).lower(), name)


def spelled(name, definitions):
    if not name[0].isupper() and name in definitions:
        return "_".join(snake(p) for p in name.split("-"))
    if name[0].isupper() and name in definitions:
        return "".join(p[0].upper() + p[1:] for p in re.split("[-_]", name))
    if name[0].isupper():
        return "".join(p[0].upper() + p[1:] for p in name.split("-")) if all(name.split("-")) and not is_lemma(name, definitions) else dashes(name, definitions)
    return dashes(name, definitions)


def is_lemma(name, definitions):
    """`All-from_get_or` is a lemma on All, `All-fit` a fact."""
    return name not in definitions and name.split("-")[0] in definitions


def dashes(name, definitions):
    parts = name.split("-")
    out = snake(parts[0])
    for before, after in zip(parts, parts[1:]):
        out += ("-" if {snake(before), snake(after)} <= definitions and not {before, after} & PLAIN else "_") + snake(after)
    return out


def main():
    dry = "--dry" in sys.argv[1:]
    declared, definitions = own()
    pairs = {}
    for name in sorted(declared):
        new = APART.get(name) or (spelled(name, definitions) if re.match(r"[A-Za-z]", name) else name)
        if new != name:
            pairs[name] = new
    taken = collections.defaultdict(set)
    for path in files(".antt", ".rt"):
        for word in set(re.findall(WORD, open(path, encoding="utf-8").read())):
            taken[word].add(path)
    together = collections.defaultdict(list)
    for name, new in pairs.items():
        together[new].append(name)
    for new, names in sorted(together.items()):
        if len(names) > 1:
            print("together:", new, "<-", *names)
        if new in taken:
            print("taken:", new, "<-", *names, "in", *sorted(taken[new])[:4])
    if dry:
        for name, new in pairs.items():
            print(name, "->", new)
        return
    word = re.compile(r"(?<![^\s(){}\[\];,.@])(" + "|".join(re.escape(n) for n in sorted(pairs, key=len, reverse=True)) + r")(?![^\s(){}\[\];,.@])")
    # in src/ only what contracts read
    rust = {n: w for n, w in pairs.items() if re.search("[A-Z]", n) or "-" in n}
    for path in files(".antt", ".rt"):
        text = open(path, encoding="utf-8").read()
        turned = "".join(part if part.startswith('"') else word.sub(lambda m: pairs[m.group(1)], part) for part in re.split(r'("(?:[^"\\\n]|\\.)*")', text)) if path.endswith(".antt") else "\n".join(clause(line, word, rust) for line in text.split("\n"))
        if turned != text:
            open(path, "w", encoding="utf-8").write(turned)
    print(len(pairs), "names")


def clause(line, word, pairs):
    if line.lstrip().startswith("//"):
        return line
    if re.match(r"\s*(ghost|requires|ensures|#!?\[tactic)", line):
        return word.sub(lambda m: pairs.get(m.group(1), m.group(1)), line)
    return line


if __name__ == "__main__":
    main()
