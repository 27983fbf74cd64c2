#!/usr/bin/env python3
"""Counts, in src/ of every crate, the places that docs/DESIGN-PASS.md speaks of: places.py [FOLDER] [-l] (-l lists them)."""
import glob, re, sys

root = next((a for a in sys.argv[1:] if not a.startswith("-")), ".")
listed = "-l" in sys.argv
files = sorted(glob.glob(f"{root}/crates/*/src/**/*.rt", recursive=True))
text = {f: open(f).read() for f in files}

FN = re.compile(r"fn (\w+)[^{;]*?(?:->\s*([^{;]*?))?\n?((?:\s*(?:requires|ensures)[^\n]*\n)*)\s*\{\n(.*?)\n(?: {0,4})\}", re.S)


def lines(pattern, skip=None):
    out = []
    for f, t in text.items():
        for n, line in enumerate(t.split("\n"), 1):
            if re.search(pattern, line) and not (skip and re.search(skip, line)):
                out.append((f, n, line.strip()))
    return out


def functions(result, body):
    out = []
    for f, t in text.items():
        for m in re.finditer(r"fn (\w+)[^{;]*?->\s*(" + result + r")\b([^{]*?(?:\{[^{}]*\}[^{]*?)*)\n\{(.*?)\n\}", t, re.S):
            if re.search(body, m.group(4) + m.group(1)):
                out.append((f, t[: m.start()].count("\n") + 1, m.group(1)))
    return out


POINTS = [
    ("1 own enums (of any shape)", lines(r"^\s*(pub )?enum ")),
    ("1 functions that answer a code by a number, or a code beside a value", functions(r"u32|Answer|Decided|Played|Exported|Imported|Written|Named", r"ERR_|STATUS|Refusal|code|Code|_code\(")),
    ("1 lines that name a code as a number", lines(r"ERR_[A-Z]|STATUS_NOERROR", r"pub const")),
    ("1 functions that answer Option or Result", functions(r"Option<[^{]*?|Result<[^{]*?|io::Result<[^{]*?", r"")),
    ("3 while loops", lines(r"^\s*('\w+: )?while\b")),
    ("3 for loops", lines(r"^\s*('\w+: )?for \w|^\s*for \(")),
    ("3 iterator methods", lines(r"\.iter\(|\.iter_mut\(|chunks|\.contains\(|copy_from_slice|copy_within|\.fill\(")),
    ("4 derives besides Drop", lines(r"#\[derive\((?!Drop\)).*\)\]")),
    ("4 impls of From, TryFrom, Display", lines(r"^impl .*(From<|Display)")),
    ("5 clauses that ask for an opened region", lines(r"(requires|ensures).*(Iso)?Opened")),
    ("5 clauses that ask for a valid memory", lines(r"(requires|ensures).*T \(valid mem")),
    ("5 clauses that ask for a part (FilterPart, LinkPart, PeriodicPart, StorePart ..)", lines(r"requires.*\w+Part\b")),
    ("6 parameters of a length beside a buffer", lines(r"len: usize")),
    ("7 closures and generic callees", lines(r"\|[\w, ]*\| |\bFn(Once|Mut)?\(")),
    ("2 functions with const or type parameters", lines(r"fn \w+<")),
]
for name, found in POINTS:
    print(f"{len(found):5}  {name}")
    if listed:
        for f, n, what in found:
            print(f"         {f[len(root) + 1 :]}:{n}: {what[:110]}")
