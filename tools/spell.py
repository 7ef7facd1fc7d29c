#!/usr/bin/env python3
# Spells the repository's own definitions and lemmas in snake case, once, after the port's own script had turned the rest.
#
#   tools/spell.py [DIR]     DIR: the top of a checkout (this one)
#   tools/spell.py --list    what would be renamed, and which names would fall together
#
# A name is the repository's own where a file of some specs/ or proofs/ declares it, at the margin, in a record, in a let or
# in a binder. Types and modules keep their capitals, and a name that a library declares stays. Names of the sources stay.
import collections
import pathlib
import re
import sys

TOKEN = r"[^\s(){}\[\];,.λ:«»⌜⌝|@\"]+"
DECLARED = re.compile(rf"^ *(?:pub |abbrev |unfoldable |ruleset )*((?:{TOKEN} )*{TOKEN})\s*(?:\{{[^}}]*\}} *)*:(?!=)")
LET = re.compile(rf"\blet ({TOKEN})\s*[:=]")
BOUND = re.compile(rf"[({{]((?:{TOKEN} )*{TOKEN}) :")
COPY = re.compile(r"/proofs/Sheets/|/Proof/(Lts|Tie)\.antt$|/proofs/Sheets\.antt$")
WORD = re.compile(TOKEN)
GOAL = re.compile(r": tie\.")
# Lemmas that were spelled so already, where a definition takes the name; the path of a function of the same name stays.
LEMMAS = """all_right answer_back at_one each_number ends_so found_of from_one left_by left_is map_of no_flag numbers_of past_after same_kind
stands_at taken_back takes_first too_many too_short""".split()


def snake(name):
    if name == "nT→false":
        return "not_T→false"
    words = re.sub(r"(?<=[a-z0-9])[A-Z]", lambda m: "_" + m[0].lower(), name)
    return words.replace("-", "_")


def own(top):
    found = collections.Counter()
    for file in texts(top):
        if file.suffix == ".antt":
            for line in file.read_text().splitlines():
                if line.lstrip().startswith("--") or GOAL.search(line):
                    continue
                if m := DECLARED.match(line):
                    found.update(m.group(1).split())
                found.update(LET.findall(line))
                for group in BOUND.findall(line):
                    found.update(group.split())
    return found


def texts(top):
    for kind in ("*.antt", "*.rt"):
        for file in sorted((top / "crates").rglob(kind)):
            if "/out/" not in str(file) and not COPY.search(str(file)):
                yield file


def imported(top):
    """names that some file takes from a library"""
    names = set()
    for file in texts(top):
        for module, group in re.findall(r"\buse ([\w.]+)\.\{([^}]*)\}", file.read_text()):
            if not module.startswith("Rattle.") or module.startswith("Rattle.std."):
                names.update(part.split(" as ")[0].strip() for part in group.split(","))
                names.update(part.split(" as ")[-1].strip() for part in group.split(","))
    return names


def renamings(top):
    library, names = imported(top), own(top)
    turned = {}
    for name in names:
        if name not in library and not name[0].isupper() and re.search(r"[a-z0-9][A-Z]|[^-]-[^-]", name) and not re.search(r"[\u00b7\u25cc]", name):
            turned[name] = snake(name)
    # a lemma that would have its definition's name
    words = {snake(name) for name in turned if "-" not in name} | {name for name in names if name not in turned}
    for name in turned:
        if "-" in name and turned[name] in words:
            turned[name] += "_lem"
    return turned | {name: name + "_lem" for name in LEMMAS}


def respell(line, turned, rust):
    out, at = [], 0
    texts_of = [m.span() for m in re.finditer(r'"(?:\\.|[^"\\])*"', line)] if rust else []
    for m in WORD.finditer(line):
        word, behind, ahead = m.group(0), line[: m.start()], line[m.end() :]
        if word not in turned or behind.endswith(("tie.", "goal.")) or any(a <= m.start() < b for a, b in texts_of):
            continue
        if rust and ("-" in word or word in LEMMAS):
            continue
        if word in LEMMAS and (behind.endswith(".") and (ahead.startswith(".") or "use " in behind) or ahead.startswith(".") and re.search(r"\.$", behind)):
            continue
        out += [line[at : m.start()], turned[word]]
        at = m.end()
    return "".join(out) + line[at:]


def main(argv):
    listing = "--list" in argv
    dirs = [a for a in argv if not a.startswith("--")]
    top = pathlib.Path(dirs[0] if dirs else pathlib.Path(__file__).resolve().parent.parent)
    turned = renamings(top)
    if listing:
        library = imported(top)
        back = collections.defaultdict(list)
        for old, new in turned.items():
            back[new].append(old)
        every = own(top)
        for new, olds in sorted(back.items()):
            if len(olds) > 1 or new in every or new in library:
                print(new, olds, "own" if new in every else "", "library" if new in library else "")
        print(len(turned))
        return
    for file in texts(top):
        text = file.read_text()
        new = "\n".join(respell(line, turned, file.suffix == ".rt") for line in text.split("\n"))
        new = new.replace("Iff·", "Iff.").replace("{open Iff}", "{Iff}")
        if new != text:
            file.write_text(new)


main(sys.argv[1:])
