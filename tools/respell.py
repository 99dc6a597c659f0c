#!/usr/bin/env python3
"""Brings this repository's own names in specs/, proofs/ and clauses to snake case.

usage: python3 tools/respell.py [--check]        at the top of the repository, once, after the kit's own script

What is turned: each word of the repository's own .antt files, and of the ghost lines of its .rt files, that begins with a small letter and has
an inner capital (firstOf), and each field of a record with a dash (words-fit). A lemma keeps the dash that joins the names in it, as std's
length-drop does. Types, modules, functions of src/, strings and files keep their names. In a function's Proof.antt the names that Rattle
makes (c.if1.true, tie.Need-returns) stay. --check lists what would fall together in one file, and writes nothing.
"""
import os
import re
import sys

WORD = re.compile(r"""[^\s(){}.;,@"«»\[\]]+""")
LIBRARY = re.compile(r"^(?:Prim|Rattle\.(?:std|core|io|libc|os)\b|[a-z]\w*\.)")
# Lemmas that the kit's script gave an underscore, and that would fall together with a definition: their dash again.
LEMMAS = ("part_held", "word_fits", "word_kept", "step_kept", "left_by", "word_next", "rows_fit", "is_digit")
MADE = {"ensures", "result", "requires", "new", "true", "false", "invariant", "before", "auto", "is"}


def texts(root):
    for folder, dirs, files in os.walk(os.path.join(root, "crates")):
        dirs[:] = sorted(d for d in dirs if d not in ("out", "must-fail"))
        for f in sorted(files):
            if f.endswith((".antt", ".rt")):
                yield os.path.join(folder, f)


def turned(word):
    return re.sub(r"(?<=[a-z0-9])[A-Z]", lambda m: "_" + m[0].lower(), word)


def candidate(word):
    """An inner capital behind a small first letter."""
    return bool(re.fullmatch(r"[\w'-]+", word)) and bool(re.match(r"[a-z][a-z0-9_'-]*[A-Z]", word))


def fields(text):
    """The fields of the text's records that have a dash, and where each is declared."""
    got, record, at = {}, None, 0
    for line in text.splitlines(keepends=True):
        bare = re.sub(r"--.*", "", line)
        indent = len(bare) - len(bare.lstrip())
        if re.match(r"\s*(?:abbrev |unfoldable |pub )*record ", bare):
            record = indent
        elif bare.strip() and record is not None:
            if indent <= record:
                record = None
            else:
                m = re.match(r"\s*(?:pub )?([\w'-]+)\s*:", bare)
                if m and "-" in m[1]:
                    got.setdefault(m[1], []).append(at + m.start(1))
        at += len(line)
    return got


def library_words(text):
    """The words that the file imports from a library, and as what."""
    got = set()
    for m in re.finditer(r"(?m)^(?:ghost )?(?:pub )?use ([^\s;{]+?)\.?\{([^}]*)\}", text):
        if LIBRARY.match(m[1]):
            for item in m[2].split(","):
                for w in re.split(r"\bas\b", item):
                    got.add(w.strip())
    return got


def is_walk(path):
    return path.endswith("/Proof.antt")


def turn_words(text, walk, kept, dashed=frozenset()):
    declared = {at for ats in fields(text).values() for at in ats}
    out, at = [], 0
    matches = list(WORD.finditer(text))
    depth, seen = 0, 0
    for i, m in enumerate(matches):
        depth += text.count("{", seen, m.start()) - text.count("}", seen, m.start())
        seen = m.start()
        w = m[0]
        behind = text[m.start() - 1 : m.start()] == "."
        if w in dashed:
            gives = depth > 0 and re.match(r"\s*=\s", text[m.end() : m.end() + 4])
            if not (behind or gives or m.start() in declared):
                continue
        elif not candidate(w) or w in kept:
            continue
        if behind:
            before = matches[i - 1][0] if i else ""
            line = text[text.rfind("\n", 0, m.start()) + 1 : m.start()]
            after = matches[i + 1][0] if i + 1 < len(matches) and text[m.end() : m.end() + 1] == "." else ""
            if not re.match(r"\s*(?:pub )?(?:ghost )?use ", line) and walk and (before in ("c", "before", "tie", "w", "goal") or after in MADE):
                continue
        out.append(text[at : m.start()])
        out.append(turned(w).replace("-", "_") if w in dashed else turned(w))
        at = m.end()
    out.append(text[at:])
    return "".join(out)


def turn_rust(text, kept):
    """The ghost lines, and words with an inner capital in comments."""
    lines = text.split("\n")
    inside = 0
    for k, line in enumerate(lines):
        if inside or re.match(r"\s*(?:ghost use\b|requires\b|ensures\b|ghost\b)", line):
            lines[k] = turn_words(line, False, kept)
            inside += line.count("{") - line.count("}")
            inside = max(inside, 0)
        elif "//" in line and '"' not in line:
            at = line.index("//")
            lines[k] = line[:at] + re.sub(r"(?<![\w.`'-])[a-z][a-z0-9]*[A-Z]\w*", lambda m: turned(m[0]), line[at:])
    return "\n".join(lines)


def main(argv):
    check = "--check" in argv
    root = "."
    files = {}
    for p in texts(root):
        with open(p, encoding="utf-8") as f:
            files[p] = f.read()
    kept = set().union(*(library_words(t) for t in files.values()))
    dashed = set().union(*(fields(t) for p, t in files.items() if p.endswith(".antt")))
    if check:
        for p, t in sorted(files.items()):
            met = {}
            for m in WORD.finditer(re.sub(r"--.*", "", t)) if p.endswith(".antt") else ():
                met.setdefault(turned(m[0]) if candidate(m[0]) and m[0] not in kept else m[0], set()).add(m[0])
            for n, ws in sorted(met.items()):
                if len(ws) > 1:
                    print(n, sorted(ws), p)
        return 0
    for p, t in files.items():
        if p.endswith(".antt") and "/proofs/" in p:
            t = re.sub(rf"(?<![\w.'-])(?:{'|'.join(LEMMAS)})(?![\w.'-])", lambda m: m[0].replace("_", "-"), t)
        new = turn_words(t, is_walk(p), kept, dashed) if p.endswith(".antt") else turn_rust(t, kept)
        if new != files[p]:
            with open(p, "w", encoding="utf-8") as f:
                f.write(new)
    return 0


if __name__ == "__main__":
    sys.exit(main(sys.argv[1:]))
