"""Respells the names of the repository's own definitions and lemmas as today's Rattle does: words in snake case.

usage: python3 tools/respell.py [--list]      at the top of the repository, once, right after port.py

A name is the repository's own where a file right in specs/ or proofs/ of a crate defines it. `fromValue2` and
`from-value2` both become `from_value2`; where two names would fall together, the lemma gets `_lem` at its end.
Names of src/, types, facts and modules (capital at the head) stay. --list prints what would be done.
"""

import collections
import os
import re
import sys

WORD = r"[\w'\-≡≢≤≥<→↔⊎×ℕℤ+*∙∷·]"
DEFINES = re.compile(r"\s*(?:(?:abbrev|unfoldable|pub) )*([^\s:(){}.,;]+)\s*:(?!:)")
FIELD = re.compile(r"\s+(?:pub )?([^\s:(){}.,;]+)\s*:(?!:)")
# Where two names would fall together and the definition should keep the plain one.
CHOSEN = {"oneBit": "is_one_bit", "writesNothing": "writes_nothing", "writes_nothing": "writes_nothing_lem"}
WORDS_OF_ANTT = {"use", "mod", "data", "record", "where", "let", "in", "elim", "unfolding", "infix", "infixl", "infixr"}


def files(ending):
    for folder, dirs, names in os.walk("crates"):
        dirs[:] = sorted(d for d in dirs if d != "out")
        for name in sorted(names):
            if name.endswith(ending):
                yield os.path.join(folder, name)


def is_own(path):
    """Whether the file holds definitions or lemmas, and not the proof of one function."""
    parts = path.split("/")
    return parts[2] == "specs" or (parts[2] == "proofs" and len(parts) == 4)


def snake(name):
    name = re.sub(r"^([A-Z]\w*)·", lambda m: m[1].lower() + "_", name)
    name = re.sub(r"(?<=[a-z0-9])([A-Z])", lambda m: "_" + m[1].lower(), name)
    return re.sub(r"(?<=\w)-(?=\w)", "_", name)


def defined():
    """Each own name, with the files that define it, and the names that a file of src/ declares or imports under another name."""
    found = collections.defaultdict(set)
    for path in files(".antt"):
        if not is_own(path):
            continue
        with open(path, encoding="utf-8") as f:
            for line in f:
                if line.lstrip().startswith("--"):
                    continue
                m = DEFINES.match(line)
                if m and m[1] not in WORDS_OF_ANTT and not line.startswith(("        ",)):
                    found[m[1]].add(path)
    aliases = set()
    for path in list(files(".rt")) + list(files(".antt")):
        with open(path, encoding="utf-8") as f:
            aliases.update(re.findall(r" as ([A-Za-z]\w*·[\w\-]+)", f.read()))
    for name in aliases:
        found[name].add("an alias")
    return found


def renames(found):
    taken = {n for n in found} | set(CHOSEN.values())
    new = {n: to for n, to in CHOSEN.items() if n in found}
    for name in sorted(found, key=lambda n: ("-" in n, n)):
        if name in new or not (name[0].islower() or "·" in name):
            continue
        to = snake(name)
        if to == name:
            continue
        while to in taken:
            to += "_lem"
        taken.add(to)
        new[name] = to
    return new


def of_others(text):
    """The names that a file imports from the kit's libraries."""
    found = set()
    for m in re.finditer(r"^use ((?:Rattle\.std|native|borrow)[\w.]*)\.\{([^}]*)\}", text, re.M):
        found.update(n.strip() for n in m[2].split(","))
    return found


def main():
    found = defined()
    new = renames(found)
    for name, to in sorted(new.items()):
        if "--list" in sys.argv or to.endswith("_lem"):
            print(f"{name} → {to}")
    if "--list" in sys.argv:
        return
    one = re.compile(rf"(?<!{WORD})(?:" + "|".join(re.escape(n) for n in sorted(new, key=len, reverse=True)) + rf")(?!{WORD})")
    def turned(text, but=frozenset()):
        return one.sub(lambda m: m[0] if m[0] in but else new[m[0]], text)

    for path in files(".antt"):
        with open(path, encoding="utf-8") as f:
            old = f.read()
        to = turned(old, of_others(old))
        if to != old:
            with open(path, "w", encoding="utf-8") as f:
                f.write(to)
    # In code only lines of contracts and ghost items are turned: there a dash never subtracts without blanks.
    for path in files(".rt"):
        with open(path, encoding="utf-8") as f:
            old = f.read()
        lines = [turned(l) if re.match(r"\s*(?:ghost |requires|ensures)", l) else l for l in old.split("\n")]
        if "\n".join(lines) != old:
            with open(path, "w", encoding="utf-8") as f:
                f.write("\n".join(lines))


main()
