#!/usr/bin/env python3
"""Brings this repository's own definitions and lemmas to the spelling of today's Rattle: words in snake case, types in camel case.

usage: python3 tools/respell.py [--dry] [ROOT]     once, at the top of the repository, after the kit's port.py

What is declared in a crate's specs/ or in a file of lemmas in its proofs/ is renamed wherever it is named: there, in the
proofs of functions, in the clauses of src/, and in the edits of must-fail/. Functions of src/, exported names, strings, inputs and outputs keep theirs.
A name that would fall together with another gets the one that BY_HAND has for it. --dry prints the names that fall together and writes nothing.
"""
import collections
import os
import re
import sys

NAME = re.compile(r"[^\s(){}\[\].,;:\"λ⌜⌝`|↦]+")
HEAD = re.compile(r"^(\s*)(?:(?:abbrev|unfoldable|opaque|private|pub|let)\s+)*((?:[^\s:(){}.;,=]+\s+)*[^\s:(){}.;,=]+)\s+:(?=\s|$)")
WORDS = {"use", "module", "where", "data", "record", "abbrev", "unfoldable", "opaque", "private", "pub", "let", "in", "elim", "if", "then", "else", "rw", "simp", "unfolding", "ensures", "requires", "ghost", "mod"}

# Names that would fall together with another one, or with a word of the library or of the language.
BY_HAND = {
    "applied-line": "applied_line_is",
    "cell_set": "cell_kept",
    "row-set": "row_kept",
    "known-length": "length_of_known",
    "read_as": "read_as_kept",
    "waits-at": "waits_at_place",
    "why-done": "why_is_done",
    "worth-done": "worth_is_done",
    "bit-or": "low_bit_or",
}
# The same, in one file alone.
BY_HAND_IN = {
    "crates/hop_rest/proofs/Tails.antt": {"queue-length": "queue_length_same"},
}


def snake(name):
    if name[0].isupper() or "◌" in name:
        return name
    name = name.replace("getD", "get_or")
    return re.sub(r"(?<=[a-z0-9'])([A-Z])", lambda m: "_" + m.group(1).lower(), name).replace("-", "_")


def files(root):
    for folder, dirs, names in os.walk(os.path.join(root, "crates")):
        dirs[:] = sorted(d for d in dirs if d not in ("out", "data"))
        for n in sorted(names):
            if n.endswith((".antt", ".rt", ".edit")):
                yield os.path.join(folder, n)


def is_stated(path):
    """A file of specs/, or a file of lemmas."""
    parts = path.split(os.sep)
    at = parts.index("crates") + 2
    return path.endswith(".antt") and (parts[at] == "specs" or parts[at] == "proofs" and len(parts) == at + 2)


def declared(text):
    found = set()
    for line in text.split("\n"):
        code = line.split("--")[0] if line.lstrip().startswith("--") else line
        m = HEAD.match(code)
        if m:
            for w in m.group(2).split():
                if w not in WORDS and not re.fullmatch(r"[A-Za-z]|[a-z]₀", w):
                    found.add(w)
    for m in re.finditer(r"^use \S+ as (\S+)", text, re.M):
        found.add(m.group(1))
    return found


def foreign(text):
    """Names that the file takes from a library that is not of this repository."""
    found = set()
    for m in re.finditer(r"use\s+(\S+?)\.\{([^}]*)\}", text):
        if not m.group(1).startswith("Rattle.hop_"):
            for item in m.group(2).split(","):
                found.add(item.split(" as ")[-1].strip())
    return found


def main():
    args = [a for a in sys.argv[1:] if a != "--dry"]
    dry = "--dry" in sys.argv
    root = args[0] if args else "."
    if os.path.exists(os.path.join(root, "docs", "PORT.md")):
        sys.exit("respell: docs/PORT.md says that this was done: a second run would rename what the first one made")
    texts = {p: open(p, encoding="utf-8").read() for p in files(root)}
    own = collections.defaultdict(set)
    for p, t in texts.items():
        if is_stated(p):
            for n in declared(t):
                own[n].add(os.path.relpath(p, root))
    names = {n: BY_HAND.get(n, snake(n)) for n in own}
    change = {n: m for n, m in names.items() if n != m}

    def turned(path, text):
        apart = foreign(text)
        here = {**change, **BY_HAND_IN.get(os.path.relpath(path, root), {})}

        def word(m):
            w = m.group(0)
            return w if w in apart else here.get(w, w)

        out = []
        for line in text.split("\n"):
            mark = "--" if path.endswith(".antt") else "//"
            at = 0 if line.lstrip().startswith(mark) else len(line)
            code, note = line[:at], line[at:]
            if path.endswith(".rt") or path.endswith(".edit"):
                pieces = re.split(r'("(?:[^"\\]|\\.)*")', code)
                code = "".join(x if x.startswith('"') else NAME.sub(word, x) for x in pieces)
            else:
                code = NAME.sub(word, code)
            note = re.sub(r"`[^`]*`", lambda m: "`" + NAME.sub(word, m.group(0)[1:-1]) + "`", note)
            note = re.sub(r"\b[a-z]+[A-Z]\w*", word, note)
            out.append(code + note)
        return "\n".join(out)

    # Which names fall together, in one file of any kind.
    for p, t in texts.items():
        before = set(NAME.findall("\n".join(l for l in t.split("\n") if not l.lstrip().startswith(("--", "//")))))
        apart = foreign(t)
        here = {**change, **BY_HAND_IN.get(os.path.relpath(p, root), {})}
        by = collections.defaultdict(set)
        for w in before:
            by[w if w in apart else here.get(w, w)].add(w)
        for m, ws in sorted(by.items()):
            if len(ws) > 1:
                print("fall together in", os.path.relpath(p, root), ":", " ".join(sorted(ws)), "->", m)
    by = collections.defaultdict(set)
    for n, m in names.items():
        by[m].add(n)
    for m, ws in sorted(by.items()):
        if len(ws) > 1:
            print("two names", " ".join(f"{w}({','.join(sorted(own[w]))})" for w in sorted(ws)), "->", m)
    print(len(change), "names change")
    if not dry:
        for p, t in texts.items():
            new = turned(p, t)
            if new != t:
                with open(p, "w", encoding="utf-8") as f:
                    f.write(new)


main()
