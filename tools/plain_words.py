#!/usr/bin/env python3
"""Gives the recursion over a list its own name where a file imported it as `All`, the name of another word of the library.

usage: python3 tools/plain_words.py        at the top of the repository
"""

import os
import re

for folder, dirs, names in os.walk("crates"):
    dirs[:] = [d for d in dirs if d != "out"]
    for name in names:
        if not name.endswith((".antt", ".rt")):
            continue
        path = os.path.join(folder, name)
        text = open(path, encoding="utf-8").read()
        if "AllByRecursion as All" not in text:
            continue
        text = text.replace("AllByRecursion as All", "AllByRecursion")
        text = re.sub(r"(?<![\w'.-])All(?![\w'-])", "AllByRecursion", text)
        open(path, "w", encoding="utf-8").write(text)
        print("plain_words:", path)
