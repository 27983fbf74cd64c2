#!/usr/bin/env python3
"""Brings the names of this repository's own definitions and lemmas to Rattle's spelling: words in snake case, `'` for a prime.

usage: tools/respell.py [FOLDER]

FOLDER, or the folder above this script, is a checkout whose files have today's syntax. A name that specs/ or proofs/ declares with a dash, a prime
or a capital inside is respelled wherever it stands as a whole word: in .antt and .rt files, in must-fail edits and in the code spans of README.md,
docs/ and demo/ (the notes of docs/landings tell what was, and stay). A name that a file imports from a library keeps its spelling there, and so do
functions of src/, strings, exported C names and the names that Rattle makes. Where two names of one file would fall together, the lemma gets `_law`
behind its name. It prints what it changed; a second run changes nothing.
"""

import collections
import os
import re
import sys

ROOT = sys.argv[1] if len(sys.argv) > 1 else os.path.join(os.path.dirname(os.path.realpath(__file__)), "..")
INSIDE = os.path.join(ROOT, "crates")
WORD = re.compile(r"[A-Za-z_μκλγδℓπσ][\w'′₀-₉-]*")
HEAD = re.compile(
    r"(?m)^[ \t]*(?:(?:pub|unfoldable|abbrev|ghost|mutual|irreducible) )*(?:(?:record|data) )?([A-Za-z_][\w'′₀-₉-]*(?:[ \t]+[A-Za-z_][\w'′₀-₉-]*)*)[ \t]*(?=[:({\[])"
)
USE = re.compile(r"(?m)^\s*(?:ghost )?(?:unfoldable )?(?:pub )?use ([^\s{;]+?)\.\{([^}]*)\}")
CRATES = {c for c in os.listdir(INSIDE) if os.path.isdir(os.path.join(INSIDE, c))}


def files(endings):
    for folder, dirs, names in os.walk(INSIDE):
        dirs[:] = sorted(d for d in dirs if d != "out")
        for name in sorted(names):
            if name.endswith(endings):
                yield os.path.join(folder, name)


def text_of(path):
    with open(path, encoding="utf-8") as f:
        return f.read()


def bare(path, text):
    """The text without its comments and strings."""
    if path.endswith(".antt"):
        return re.sub(r"--.*", "", text)
    return re.sub(r'//.*|b?"(?:\\.|[^"\\])*"', "", text)


def is_old(name):
    return "-" in name or "′" in name or (name[0].islower() and re.search("[A-Z]", name) is not None)


def snake(name):
    name = name.replace("-", "_").replace("′", "'")
    if not name[0].islower():
        return name
    return re.sub(r"([a-z0-9])([A-Z])(?=[a-z0-9_']|$)", lambda m: m.group(1) + "_" + m.group(2).lower(), name)


def declared():
    """Each name that an .antt file declares, and whether a file of specs/ does."""
    found = collections.defaultdict(bool)
    for path in files(".antt"):
        text = bare(path, text_of(path))
        for m in HEAD.finditer(text):
            end = text.find("\n", m.end())
            if " : " not in text[m.start() : end if end > 0 else len(text)]:
                continue
            for name in m.group(1).split():
                found[name] |= "/specs/" in path
    return found


def of_libraries(text):
    """The names that the file imports from a library."""
    found = set()
    for m in USE.finditer(text):
        parts = m.group(1).split(".")
        if len(parts) == 1 or (parts[0] == "Rattle" and parts[1] in CRATES):
            continue
        found |= {n.strip().split(" as ")[0].strip() for n in m.group(2).split(",")}
    return found


OWN = declared()
TABLE = {n: snake(n) for n in OWN if is_old(n)}
TARGETS = set(TABLE.values())


def settle():
    """Where names of one file fall together, the lemma keeps its words and gets `_law`. Gives what is to be so in single files."""
    single = collections.defaultdict(dict)
    for path in files((".antt", ".rt")):
        text = bare(path, text_of(path))
        keeps = of_libraries(text)
        met = collections.defaultdict(set)
        for word in set(WORD.findall(text)):
            to = word if word in keeps else snake(word) if word in TABLE else word
            if to in TARGETS:
                met[to].add(word)
        for to, words in met.items():
            if len(words) < 2 or (path.endswith(".rt") and not any("-" in w for w in words)):
                continue
            dashed = [w for w in words if "-" in w and w in TABLE]
            if dashed:
                for w in dashed:
                    TABLE[w] = to + "_law"
            elif to in words and not path.endswith("Proof.antt"):
                single[path][to] = to + "_law"
    return single


SINGLE = settle()


def turned(path, text):
    keeps = of_libraries(text)
    here = SINGLE.get(path, {})

    def word(m):
        w = m.group()
        if w in here:
            return here[w]
        if w in keeps or w not in TABLE:
            return w
        if path.endswith("Proof.antt") and (text[: m.start()].endswith("tie.") or re.search(r"Need-$", text[: m.start()])):
            return w
        return TABLE[w]

    if path.endswith(".rt"):
        parts = re.split(r'(b?"(?:\\.|[^"\\])*")', text)
        return "".join(p if k % 2 else WORD.sub(word, p) for k, p in enumerate(parts))
    return WORD.sub(word, text)


def spans(text):
    return re.sub(r"`[^`\n]+`", lambda m: WORD.sub(lambda w: TABLE.get(w.group(), w.group()), m.group()), text)


def main():
    changed = 0
    for path in files((".antt", ".rt", ".edit")):
        text = text_of(path)
        new = turned(path, text)
        if new != text:
            with open(path, "w", encoding="utf-8") as f:
                f.write(new)
            changed += 1
    pages = [os.path.join(ROOT, "README.md"), os.path.join(ROOT, "demo", "README.md")]
    docs = os.path.join(ROOT, "docs")
    pages += [os.path.join(docs, p) for p in sorted(os.listdir(docs)) if p.endswith(".md") and not p.startswith("PORT")]
    for path in pages:
        if os.path.exists(path):
            text = text_of(path)
            new = spans(text)
            if new != text:
                with open(path, "w", encoding="utf-8") as f:
                    f.write(new)
                changed += 1
    print(f"respell: {len(TABLE)} names, {changed} files")
    for old, new in sorted(TABLE.items()):
        if new.endswith("_law") and new != snake(old):
            print(f"  {old} -> {new}")


main()
