#!/usr/bin/env python3
"""Spells the repository's own definitions, record fields and lemmas as the kit does.

usage: python3 tools/spell_names.py [--list]        at the top of the repository

A word of several parts is in snake case, a type or a fact in camel case, and `getD` inside a name is `get_or`.
Names are taken from specs/ and proofs/; a goal's name is made by the kit and stays, and so do comments, strings,
and every name that comes from src/. It was run once, when the repository moved to a newer kit.
"""

import os
import re
import sys

KEPT = {"length-insert"}  # a name of the library too
RESERVED = {"record", "ruleset", "data", "open"}
WORD = r"[^\W\d_][\w'-]*"
DEFINED = re.compile(rf"^((?:  )*)(?:abbrev |pub )*({WORD}) :(?!=)(.*)$", re.M)
RECORD = re.compile(rf"^((?:  )*)(?:pub |abbrev )*(?:record|data) (?:pub )?({WORD})(?: .*)?$", re.M)
GOAL = re.compile(r"goal\.|rules\.|given\.")
MADE = re.compile(
    r"(invariant|measure|decreases|loop|returns|bounds|offset|overflow|nonzero|slice|type_inv)-|.*-(requires|init|preserved|law)$"
)


def files(ends):
    for top in ("crates",):
        for folder, dirs, names in os.walk(top):
            dirs[:] = sorted(d for d in dirs if d != "out")
            for name in sorted(names):
                if name.endswith(ends):
                    yield os.path.join(folder, name)


def spelled(name):
    name = name.replace("getD", "get_or")
    parts = name.split("-")
    if len(parts) == 1:
        return name
    if name[0].isupper():
        return "".join(p[0].upper() + p[1:] for p in parts)
    return "_".join(parts)


def own_names():
    names = {}
    for path in files(".antt"):
        proof = os.path.basename(path) in ("Answers.antt", "Invariants.antt", "Proof.antt")
        text = open(path, encoding="utf-8").read()
        for m in [*DEFINED.finditer(text), *RECORD.finditer(text)]:
            name, rest = m.group(2), m.groups()[2] if len(m.groups()) > 2 else ""
            if proof and (GOAL.search(rest) or MADE.match(name) or "/TheImpl/" in path or m.group(1)):
                continue
            if spelled(name) != name and name not in KEPT:
                names.setdefault(name, set()).add(path)
    return names


def turned(text, names, comment):
    token = re.compile(
        rf"{comment}[^\n]*|\"(?:[^\"\\\n]|\\.)*\"|«([^»\n]*)»|(?<![\w'-])({WORD})"
    )

    # a name that an import gives
    local = set(re.findall(rf" as «?({WORD}-{WORD})»?[,}}]", text))

    def one(m):
        word = m.group(1) if m.group(1) is not None else m.group(2)
        if word is None:
            return m.group(0)
        if word in names or word in local:
            return spelled(word)
        plain = m.group(1) is not None and re.fullmatch(r"\w+", word) and word not in RESERVED
        return word if plain else m.group(0)

    return token.sub(one, text)


def main():
    names = own_names()
    if "--list" in sys.argv:
        for name in sorted(names):
            print(name, "->", spelled(name), " ".join(sorted(names[name])))
        return
    changed = 0
    for path in files((".antt", ".rt")):
        text = open(path, encoding="utf-8").read()
        new = turned(text, names, "--" if path.endswith(".antt") else "//")
        if new != text:
            open(path, "w", encoding="utf-8").write(new)
            changed += 1
    print(f"spell_names: {len(names)} names in {changed} files")


main()
