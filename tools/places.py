#!/usr/bin/env python3
"""Counts the places of the points of docs/DESIGN-PASS.md in src/: tools/places.py [COMMIT].

Of the checkout, or of a commit. A line for each count: the point, how many, what is counted, and by which pattern: of lines, or of the
parameters of a function.
"""
import io
import re
import subprocess
import sys
import tarfile
from pathlib import Path

ROOT = Path(__file__).resolve().parent.parent

LINES = [
    (1, "enums of the shape of Option or Result", r"\benum (Answer|Verdict|Scanned|Line|Written|Yarn)\b"),
    (1, "answers looked at by their number", r"\.number\(\) (!=|==) 0"),
    (1, "structs with an answer or a flag beside values",
     r"\bstruct (Ran|Tried|Found|Tested|Begin|Counted|Looked|Record|FoundWide|Listed|Word|Parsed|Levels|Made|Outcome|Held|Line)\b"),
    (1, "commands as numbers, constants", r"^pub const [A-Z]+: u32"),
    (3, "loops by a test", r"^\s*while "),
    (3, "steps of an index", r"^\s*[a-z]+ [+-]= 1;"),
    (4, "values compared, converted or printed by hand",
     r"^\s*(pub |pub\(crate\) )?fn (same|number|place|second|bit|state_of|numbers_of|signed|magnitude|field|digits|put_number|is_base|least|size|digit|long)\b"),
    (5, "clauses that say Room", r"^\s*(requires|ensures).*\bRoom "),
    (5, "clauses that say Waits", r"^\s*(requires|ensures).*\bWaits "),
    (5, "clauses that say Within", r"^\s*(requires|ensures).*\bWithin "),
    (7, "a choice by a flag or a command", r"\bmatch (line\.)?command\b|\bif base\b|command (<|==) [A-Z]+"),
]
PARAMETERS = [
    (1, "kinds and commands as numbers, functions", lambda p: any(p.get(n) in ("usize", "u32") for n in ("k", "kind", "coming", "command"))),
    (5, "table, history and work lent to one function", lambda p: {"table", "history", "work"} <= p.keys()),
    (5, "work and d lent to one function", lambda p: {"work", "d"} <= p.keys()),
    (5, "a writer, a page and a count lent to one function", lambda p: {"out", "page"} <= p.keys()),
    (5, "the rooms lent to one function", lambda p: sum("Room" in t for t in p.values()) > 2),
    (6, "a slice with a count beside it", lambda p: "used" in p or ("n" in p and any("[" in t for t in p.values()))),
]


def sources(commit):
    """The text of each file of src/, by its path."""
    if commit is None:
        return {str(f.relative_to(ROOT)): f.read_text() for f in sorted(ROOT.glob("crates/*/src/**/*.rt"))}
    packed = subprocess.run(["git", "archive", commit, "crates"], cwd=ROOT, check=True, capture_output=True).stdout
    with tarfile.open(fileobj=io.BytesIO(packed)) as tar:
        return {m.name: tar.extractfile(m).read().decode() for m in tar if "/src/" in m.name and m.name.endswith(".rt")}


def signatures(text):
    """The parameters of each function, type by name."""
    for found in re.finditer(r"\bfn \w+[^({]*\(([^)]*)\)", text):
        parts = (p.split(":", 1) for p in found.group(1).split(",") if ":" in p)
        yield {name.strip().removeprefix("mut ").strip(): kind.strip() for name, kind in parts}


def main():
    texts = sources(sys.argv[1] if len(sys.argv) > 1 else None)
    rows = []
    for point, what, pattern in LINES:
        rule = re.compile(pattern)
        rows.append((point, sum(1 for t in texts.values() for line in t.splitlines() if rule.search(line)), f"{what}: {pattern}"))
    for point, what, test in PARAMETERS:
        rows.append((point, sum(1 for t in texts.values() for p in signatures(t) if test(p)), what))
    for point, n, what in sorted(rows, key=lambda row: row[0]):
        print(f"{point}  {n:4}  {what}")


if __name__ == "__main__":
    main()
