#!/usr/bin/env python3
# Makes docs/EDITS.md from the heads of the must-fail edits, crates/NAME/must-fail/EDIT.edit, or compares it with them.
#
#   tools/edits.py           writes the page
#   tools/edits.py --check   says whether the page is the one that the heads make: exit status 1 where it is not
#
# The head of an edit is its lines that begin with #. The first ones say what is wrong with it; then, each where there is something to say:
#   # fails: what refuses it: the function or law at which its check fails first, or the computed rows that refuse it, with the laws left out too
#   # law: the law that says the same, where a computed row refuses the edit
#   # twin: a harmless rewriting at the same place, which passes, or what was tried
import pathlib
import re
import sys

ROOT = pathlib.Path(__file__).resolve().parent.parent
PAGE = ROOT / "docs" / "EDITS.md"

HEAD = """# Wrong on purpose

Each row is one wrong program or wrong definition. The gate makes the edit in a copy of its crate, checks the crate, and fails where the check passes. What is wrong; what refuses it, the function or law at which the check fails first, or the computed rows, which refuse it with the laws left out too, and the law that says the same; and a twin: a harmless rewriting of the same
line that passes, so that the edit is refused for the fact and not for the text. The twins of programs that pass were tried with today's kit; what is said of other rewritings of a line, and the twins of definitions, with the older one, before the port (`docs/PORT.md`). `docs/CLAIMS.md` says how they were chosen. This page is made from the heads of the edits by `tools/edits.py`.
"""


def fields(edit):
    """what the head of an edit says, by name; "wrong" is its first part"""
    said, name = {"wrong": []}, "wrong"
    for line in edit.read_text().splitlines():
        if not line.startswith("#"):
            break
        text = line[1:].strip()
        if m := re.match(r"(fails|law|twin): (.*)", text):
            name, text = m.groups()
        said.setdefault(name, []).append(text)
    return {k: " ".join(v).replace("|", "\\|") for k, v in said.items()}


def edited(edit):
    """the files that an edit changes"""
    return sorted({line[6:].strip() for line in edit.read_text().splitlines() if line.startswith("file: ")})


def page():
    out, all_edits = [HEAD], 0
    for folder in sorted((ROOT / "crates").glob("*/must-fail")):
        edits = sorted(folder.glob("*.edit"))
        if not edits:
            continue
        all_edits += len(edits)
        out.append(f"\n## {folder.parent.name}\n\n| edit | of | what is wrong | refused by | twin |\n|---|---|---|---|---|\n")
        for edit in edits:
            said = fields(edit)
            first = said.get("fails", "") + (f"; law: {said['law']}" if "law" in said else "")
            files = ", ".join(f"`{f}`" for f in edited(edit))
            out.append(f"| `{edit.stem}` | {files} | {said['wrong']} | {first} | {said.get('twin', '')} |\n")
    out.append(f"\n{all_edits} in all.\n")
    return "".join(out)


def main():
    made = page()
    if sys.argv[1:] == ["--check"]:
        if not PAGE.exists() or PAGE.read_text() != made:
            print("docs/EDITS.md is not what the heads of the must-fail edits make: run tools/edits.py")
            sys.exit(1)
        return
    PAGE.write_text(made)


main()
