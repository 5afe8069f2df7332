#!/usr/bin/env python3
"""Spells the goals and steps that proof files name as today's kit does.

usage: python3 tools/goal_names.py NAME..        at the top of the repository

An older kit joined the words of a source name by dashes too (`if-not-goes-on`); now a name from the source keeps its
spelling (`if-not-goes_on`). For each function of the crate the check lists its names (`rt check --generated`), and a word
of its proof files that is not among them becomes the one name that differs from it in dashes alone.
"""

import json
import os
import re
import subprocess
import sys
import tempfile

WORD = re.compile(r"(?<![\w'-])[^\W\d_][\w'-]*")


def strings(value, found):
    if isinstance(value, str):
        found.add(value)
    elif isinstance(value, list):
        for v in value:
            strings(v, found)
    elif isinstance(value, dict):
        for k, v in value.items():
            strings(k, found)
            strings(v, found)


def plain(word):
    return word.replace("_", "-")


def generated(crate):
    folder = tempfile.mkdtemp(prefix="names-")
    subprocess.run(["rt", "check", "--generated", folder, "--old-names"], cwd=crate, capture_output=True)
    path = os.path.join(folder, "names.json")
    return json.load(open(path)) if os.path.exists(path) else {}


def turn(crate):
    name = os.path.basename(crate)
    for key, value in generated(crate).items():
        parts = key.split(".")
        if not parts[0].endswith("-proofs") or parts[-1] != "Lts":
            continue
        folder = os.path.join(crate, "proofs", *parts[1:-1])
        found = set()
        strings(value, found)
        for n in list(found):
            for prefix in ("invariant-", "measure-", "decreases-", "invariant_of-", "then-", "else-"):
                found.add(prefix + n)
            for a, b in (("if-", "then-"), ("if-", "else-"), ("if-", "returns-then-"), ("if-", "returns-else-"), ("in-", "returns-in-")):
                if n.startswith(a):
                    found.add(b + n[len(a):])
        byname = {}
        for n in found:
            byname.setdefault(plain(n), set()).add(n)
        for file in ("Answers.antt", "Invariants.antt"):
            path = os.path.join(folder, file)
            if not os.path.exists(path):
                continue
            old = open(path, encoding="utf-8").read()
            text = re.sub(r"\.-(?=[a-z])", "._", old)
            body = re.split(r"(^use [^\n]*\n)", text, flags=re.M)

            def one(m):
                w = m.group(0)
                if "-" not in w or w in found:
                    return w
                options = byname.get(plain(w), set())
                return next(iter(options)) if len(options) == 1 else w

            new = "".join(
                p if p.startswith("use ") and ".proofs." + ".".join(parts[1:-1]) + "." not in p else WORD.sub(one, p) for p in body
            )
            if new != old:
                open(path, "w", encoding="utf-8").write(new)
                print("goal_names:", path)


for crate in sys.argv[1:]:
    turn(os.path.join("crates", crate))
