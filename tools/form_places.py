#!/usr/bin/env python3
"""Lists the places in crates/*/src where an older form may stand, by kind, and counts them.

    python3 tools/form_places.py            every kind, with its places
    python3 tools/form_places.py --counts   the counts alone

It reads text, so a place is one to look at and no verdict: docs/DESIGN-PASS.md says of each what became of it.
"""
import pathlib
import re
import sys

TOP = pathlib.Path(__file__).resolve().parent.parent

# (the kind of form, what is looked for, pattern); a pattern runs over a whole file
PATTERNS = [
    ("options and results", "an enum of two cases, one bare and one with a value", r"enum \w+(?:<[^>]*>)? \{\s*(?:#\[\w+\]\s*)?(?:\w+,\s*\w+\([^)]*\),|\w+\([^)]*\),\s*\w+,)\s*\}"),
    ("options and results", "a struct's flag beside its value", r"(?m)^    (?:pub(?:\(crate\))? )?\w+: bool,$"),
    ("options and results", "a parameter that is a flag beside a value", r"fn \w+[^(]*\([^)]*: bool, [^)]*\)"),
    ("options and results", "a list's length that means none", r"(?m)^    \w+\.len\(\)\n\}"),
    ("options and results", "a number that means none", r"== 0 \{\n\s*return|0 is none|== 0 && \w+\.\w+ == 0"),
    ("options and results", "a fault in an Option", r"-> Option<Fault>"),
    ("options and results", "a fault handed on by hand", r"if let (?:Some|Err)\(fault\) = "),
    ("options and results", "a test by a pattern that is a method", r"if let Some\(_\) ="),
    ("options and results", "a number for a refusal", r"fn number_of|fn is\(fault|fn told\(fault"),
    ("loops", "a loop", r"(?m)^\s*(?:for|while|loop)\b[^;\n]*(?:\{|\($|in$)"),
    ("derives", "a trait of std by hand", r"(?m)^impl(?:<.*>)? (?:fmt::)?(?:PartialEq|Eq|PartialOrd|Ord|Hash|Clone|Default|From<.*>|TryFrom<.*>|Debug|Display|FromStr) for"),
    ("derives", "equality or order by hand", r"fn (?:same\w*|ranks_ahead|is_exclusive)\b"),
    ("derives", "a case taken for equality", r"(?m)^\s*Some\(\w+\) => .*(?:==|\.same\(|\.takes\().*,\n\s*None => false,"),
    ("derives", "a fault printed by hand", r"fault\.number\(\);"),
    ("derives", "a value read or shown by hand in a program", r"fn (?:read_value|show\w*|number_of|joined)\b"),
    ("tables that know their count", "a count beside a buffer", r"(?m)^    (?:pub(?:\(crate\))? )?(?:count|spare|top|len): usize,$"),
    ("tables that know their count", "two tables of one index in one struct", r"(?m)^    (?:pub(?:\(crate\))? )?\w+: \[[^\]]*; \w+\],\n(?:\s*//.*\n)?    (?:pub(?:\(crate\))? )?\w+: (?:\[[^\]]*; \w+\]|Option)"),
    ("tables that know their count", "a filler for what is not in use", r"const (?:VACANT|UNLABELLED)\b"),
    ("tables that know their count", "labels beside the part that they label", r"\w+_labels: LabelTable"),
    ("closures", "an enum handed down as the step to run", r"by: Change\b"),
    ("closures", "a match on a number for which to run", r"(?m)^\s*match field \{"),
]


def repeated_clauses(files):
    """Definitions of several arguments that stand in the clauses of three or more functions of one crate."""
    seen = {}
    for f in files:
        crate = f.relative_to(TOP / "crates").parts[0]
        name = None
        for line in f.read_text().split("\n"):
            m = re.search(r"\bfn (\w+)", line)
            if m:
                name = f"{f.stem}::{m[1]}"
            m = re.match(r"\s*(?:ensures|requires)\b[^{]*\{(.*)\}", line)
            if m and name:
                for head, rest in re.findall(r"(?<![\w.])([A-Z]\w+)((?: (?:self|[\w.]+)(?:\.[\w.]+)?){3,})", m[1]):
                    seen.setdefault((crate, head), set()).add(name)
    return {k: v for k, v in seen.items() if len(v) >= 3}


def twins(files):
    """Functions of one name in several files."""
    seen = {}
    for f in files:
        for name in re.findall(r"\bfn (\w+)", f.read_text()):
            seen.setdefault(name, []).append(str(f.relative_to(TOP / "crates")))
    return {n: sorted(set(w)) for n, w in seen.items() if len(set(w)) >= 2}


def main():
    brief = "--counts" in sys.argv[1:]
    files = sorted((TOP / "crates").glob("*/src/**/*.rt"))
    for kind, what, pattern in PATTERNS:
        places = []
        for f in files:
            text = f.read_text()
            for m in re.finditer(pattern, text):
                line = text.count("\n", 0, m.start() + (len(m[0]) - len(m[0].lstrip()))) + 1
                places.append(f"{f.relative_to(TOP / 'crates')}:{line}")
        print(f"{kind}: {what}: {len(places)}")
        if not brief:
            for p in places:
                print(f"    {p}")
    names = twins(files)
    print(f"twins: a function's name in two files or more: {len(names)}")
    if not brief:
        for n, where in sorted(names.items()):
            print(f"    {n}: {', '.join(where)}")
    facts = repeated_clauses(files)
    print(f"facts said once: a definition of three arguments or more in the clauses of three functions or more: {len(facts)}")
    if not brief:
        for (crate, head), where in sorted(facts.items()):
            print(f"    {crate}: {head}: {', '.join(sorted(where))}")
    answers = sum(len(re.findall(r"(?m)^pub [\w-]+ : goal\.", f.read_text())) for f in (TOP / "crates").glob("*/proofs/**/*.antt"))
    lines = sum(f.read_text().count("\n") for f in (TOP / "crates").glob("*/proofs/**/*.antt"))
    print(f"proofs: answers in proofs: {answers}; lines of proofs: {lines}")


if __name__ == "__main__":
    main()
