#!/usr/bin/env python3
"""Brings the names in README.md and docs/ to snake case, as tools/respell.py did those of specs/ and proofs/.

usage: python3 tools/respell_pages.py        at the top of the repository

A word with an inner capital is turned where it stands between backticks and a .antt file declares its new name.
"""
import os
import re


def declared(root):
    names = set()
    for folder, dirs, files in os.walk(os.path.join(root, "crates")):
        dirs[:] = [d for d in dirs if d != "out"]
        for f in files:
            if f.endswith(".antt"):
                with open(os.path.join(folder, f), encoding="utf-8") as it:
                    names |= set(re.findall(r"[^\s(){}.;,@\"«»\[\]]+", it.read()))
    return names


def main():
    names = declared(".")

    def word(m):
        new = re.sub(r"(?<=[a-z0-9])[A-Z]", lambda k: "_" + k[0].lower(), m[0])
        if new in names:
            return new
        if new.replace("-", "_") in names:
            return new.replace("-", "_")
        return m[0]

    def quoted(m):
        t = re.sub(r"(?<![\w'-])[a-z][\w'-]*(?![\w'-])", lambda k: word(k) if k[0] not in names else k[0], m[0])
        return t

    pages = ["README.md"] + [os.path.join(d, f) for d, _, fs in os.walk("docs") for f in fs if f.endswith(".md") and f not in ("PORT.md",)]
    for p in pages:
        with open(p, encoding="utf-8") as f:
            text = f.read()
        new = re.sub(r"`[^`\n]+`", quoted, text)
        if new != text:
            with open(p, "w", encoding="utf-8") as f:
                f.write(new)


main()
