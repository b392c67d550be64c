#!/usr/bin/env python3
"""Lists every public function with the line that says of it: any two outcomes that its promise allows are equal.

Usage: tools/unique.py [-q]

The lines stand in proofs/Unique.antt of each library crate, and the gate proves them. A line has the name of its
function, behind its type's where it is a method, as `matrix2_order`; where a definition has that name, the line has
`_lem` at its end, as `move_vectors_lem`. The methods and the constants of a public trait have a line for each record;
a generic function has one for every type, and may have more, each at one type. This script checks that none is missing. It fails where a public function has
no line, or a line that speaks of another promise; where parameters are lent by `&mut` and the line leaves one of them
out; where a public function has a `requires`, other than that its closure may be called; where it can't read a public
function; and where it finds none at all, or no export.

The exports stand for themselves: a static library's crate NAME_c is held to the library NAME word for word. It fails
unless both have the same public functions, by module, with the same parameters, answers and clauses.
"""
import glob
import os
import re
import sys

WORDS = ["Decided", "DecidedLent", "DecidedWhere"]
PUBLIC = re.compile(r"\bpub\s+(?:extern\s+\"\"\s+)?fn\s+(\w+)\s*(<[^>]*>\s*)?\(")
CLAUSE = re.compile(r"\s*(requires|ensures)\b[^{]*\{")
RESULT = re.compile(r"[^{]*?(?=\b(?:requires|ensures)\b|\{)")
# a method of a trait, and the parameters of its closure, if it takes one
METHOD = re.compile(r"\bfn\s+(\w+)\s*(?:<F: Fn\(([^()]*)\)(?:->|[^<>])*>)?\(")
# what a line says of a closure that takes one number or two: it computes a function
COMPUTES = {
    1: "(λ κ a. (f : Float → Float) × Computes (λ x r. F.post a.1.0 (x, tt) r) f)",
    2: "(λ κ a. (f : Float → Float → Float) × Computes₂ (λ x y r. F.post a.1.1.0 (x, (y, tt)) r) f)",
}


def read(path):
    return open(path, encoding="utf-8").read()


def code(path):
    """The text of a source file without its comments and what stands in quotes."""
    return re.sub(r"//[^\n]*|\"(?:\\.|[^\"\\])*\"|b'(?:\\.|[^'\\])'", lambda m: "" if m.group()[0] == "/" else '""', read(path))


def closing(text, at):
    """The place after the bracket that closes the one before `at`."""
    depth = 1
    while depth:
        depth += {"(": 1, "{": 1, "[": 1, ")": -1, "}": -1, "]": -1}.get(text[at], 0)
        at += 1
    return at


def libraries():
    """The library crates that crates.txt names, and those of static libraries."""
    lines = re.findall(r"^\s*(\w+)\b([^:\n]*):", re.sub(r"#[^\n]*", "", read("crates.txt")), re.M)
    lines = [(name, "staticlib" in more) for name, more in lines if os.path.exists(f"crates/{name}/src/lib.rt")]
    return [name for name, static in lines if not static], [name for name, static in lines if static]


def promised(crate):
    """Each exported function of a crate by its module and name, with its parameters, its answer and its clauses."""
    found = {}
    for path in sorted(glob.glob(f"crates/{crate}/src/*.rt")):
        text = re.sub(r"//[^\n]*", "", read(path))
        for m in re.finditer(r"\bpub extern \"C\" fn (\w+)(\(.*?)\n\{\n", text, re.S):
            found[os.path.basename(path), m.group(1)] = re.sub(r",(?=\s*\))", "", m.group(2)).split()
    return found


def unlike(exports):
    """What the exports promise otherwise than the library that they hand on to."""
    of = exports.removesuffix("_c")
    ours, theirs = promised(exports), promised(of)
    if of == exports or not ours:
        return [f"crates/{exports}: no exports of a library can be read"]
    bad = [f"crates/{exports}: {name} in {path} is not what {of} has there" for path, name in sorted(ours) if ours[path, name] != theirs.get((path, name))]
    return bad + [f"crates/{exports}: {name} of {of}'s {path} is not handed on" for path, name in sorted(theirs.keys() - ours.keys())]


def parameters(text):
    """The parameters of a list, cut at the commas that stand in no bracket."""
    parts, depth = [""], 0
    for c in text:
        depth += {"(": 1, "[": 1, "<": 1, ")": -1, "]": -1, ">": -1}.get(c, 0)
        if c == "," and depth == 0:
            parts.append("")
        else:
            parts[-1] += c
    return [part.strip() for part in parts if part.strip()]


def functions(crate):
    """Each public function: its place under proofs/, the name of its line, its parameters, whether it has type parameters, and whether it has a `requires`."""
    sources = {path: code(path) for path in sorted(glob.glob(f"crates/{crate}/src/**/*.rt", recursive=True))}
    module = {p: [] if p.endswith("src/lib.rt") else p[len(f"crates/{crate}/src/") : -3].split("/") for p in sources}
    declared = {}
    for path, text in sources.items():
        for name in re.findall(r"\b(?:struct|enum)\s+(\w+)", text):
            declared[name] = [*module[path], name]
    for path, text in sources.items():
        impls = [(m.group(1), m.end(), closing(text, m.end())) for m in re.finditer(r"\bimpl\s+(\w+)[^{]*\{", text)]
        heads = list(PUBLIC.finditer(text))
        stated = re.findall(r"\bpub\b(?!\s*\()[^;{}()]*\bfn\s+(\w+)", text)
        if [m.group(1) for m in heads] != stated or re.search(r"\bmod\s+\w+\s*\{", text):
            sys.exit(f"{path}: can't read {stated}")
        for m in heads:
            name, end = m.group(1), closing(text, m.end())
            owner = [declared[of] for of, start, stop in impls if start < m.start() < stop]
            at, clauses = RESULT.match(text, end).end(), []
            while c := CLAUSE.match(text, at):
                clauses.append(c.group(1))
                at = closing(text, c.end())
            taken = parameters(text[m.end() : end - 1])
            if not re.match(r"\s*\{", text[at:]) or "ensures" not in clauses or any("<" in p for p in taken):
                sys.exit(f"{path}: can't read {name}")
            place = [*(owner[0] if owner else module[path]), name]
            line = "_".join(place[-2:] if owner else place[-1:]).lower()
            # a type parameter: the line stands for every type and what its bounds bring
            generic = any(not re.match(r"'|const\b", p) for p in parameters((m.group(2) or "").strip()[1:-1]))
            yield path, place, line, taken, generic, "requires" in clauses


def traits(crates):
    """Each public trait: its methods and constants by name, with how many numbers the closure takes, or 0, and whether it asks more than that the closure may be called."""
    found = {}
    for path in (p for crate in crates for p in sorted(glob.glob(f"crates/{crate}/src/**/*.rt", recursive=True))):
        text = code(path)
        for trait in re.finditer(r"\bpub trait (\w+)[^{]*\{", text):
            body = text[trait.end() : closing(text, trait.end()) - 1]
            heads = list(METHOD.finditer(body))
            if [m.group(1) for m in heads] != re.findall(r"\bfn\s+(\w+)", body):
                sys.exit(f"{path}: can't read {trait.group(1)}")
            found[trait.group(1)] = methods = {}
            for m in heads:
                end = closing(body, m.end())
                at, clauses = re.compile(r"(?:\[[^{}\n]*\]|[^{;])*?(?=\b(?:requires|ensures)\b|[{;])").match(body, end).end(), []
                while c := CLAUSE.match(body, at):
                    at = closing(body, c.end())
                    clauses.append((c.group(1), body[c.end() : at - 1].strip()))
                asked = [text for word, text in clauses if word == "requires"]
                if all(word == "requires" for word, _ in clauses) or "&mut" in body[m.end() : end].replace(" ", ""):
                    sys.exit(f"{path}: can't read {m.group(1)}")
                taken = len(parameters(m.group(2) or ""))
                methods[m.group(1)] = (taken, asked != ["F.IsAlwaysCallable f"] * bool(taken))
            # a constant promises what its ghost says
            for name in re.findall(r"\bconst (\w+):", body):
                if not re.search(rf"\bghost {name}:", body):
                    sys.exit(f"{path}: {name} of {trait.group(1)} has no ghost")
                methods[name] = (0, False)
    return found


def implemented(crate, methods):
    """Each method and constant of a public trait at each record that has it: its place under proofs/, the name of its line, and what the trait says of it."""
    for path in sorted(glob.glob(f"crates/{crate}/src/**/*.rt", recursive=True)):
        module = [] if path.endswith("src/lib.rt") else path[len(f"crates/{crate}/src/") : -3].split("/")
        # a conversion between two records says of what it gives what its impl's ghost does
        for source, record in re.findall(r"\bimpl From<(\w+)> for (\w+)\s*\{\s*ghost from_gives", code(path)):
            yield path, [*module, f"{record}From{source}", "from"], f"{record}_from_{source}".lower(), (0, False)
        for trait, number, record in re.findall(r"\bimpl (\w+)(?:<(\d+)>)? for (\w+)", code(path)):
            for name, said in methods.get(trait, {}).items():
                yield path, [*module, record + trait + number, name], f"{record}_{name}".lower(), said


def lines(crate):
    """Each line of proofs/Unique.antt by its name: the word, and the rest of its type with every name written out."""
    found = {}
    for path in glob.glob(f"crates/{crate}/proofs/Unique.antt"):
        if not re.search(r"^pub mod Unique$", read(f"crates/{crate}/proofs/Lib.antt"), re.M):
            sys.exit(f"{path}: proofs/Lib.antt doesn't name it, so nothing checks it")
        text, names = read(path), {}
        for full, listed, other in re.findall(r"^use ([^\s{]+?)(?:\.\{(.*?)\}| as (\S+))?$", text, re.M | re.S):
            for part in filter(None, re.split(r"[\s,]+", listed)):
                names[part] = f"{full}.{part}"
            if not listed:
                names[other or full.split(".")[-1]] = full
        for name, type_ in re.findall(r"^pub (\w+) : (.*(?:\n[ ]+.*)*)", text, re.M):
            # the type of what is lent, which the checker wants to be told where there are two
            # and before it what a closure or a type parameter brings
            word, *rest = re.split(r"\s+", re.sub(r"^(?:\([^()]* : _\)\s+)+→\s+|\{L = [^{}]*\}\s+", "", type_))
            # a promise at whatever its type parameters bring
            brought = re.match(r"\(([^()]*) : _\)", type_)
            if brought and brought.group(1).split() == " ".join(rest[1:]).rstrip(")").split():
                rest = [rest[0], "..)"]
            if word in WORDS:
                spelt = [re.sub(r"^(\(?)([^\s.()]+)(?=[.])", lambda m: m.group(1) + names.get(m.group(2), m.group(2)), r) for r in rest]
                found[name] = (names.get(word, word), " ".join(spelt))
    return found


def wanted(crate, place, taken, generic):
    """The type that says it of this function, over its promise."""
    promise = f"Rattle.{crate}.proofs.{'.'.join(place)}.Reads.Learnt"
    lent = ["s" + ".1" * i + ".0.now" for i, p in enumerate(taken) if re.search(r"&\s*(?:'\w+\s+)?mut\b", p)]
    if generic:
        promise = f"({promise} ..)"
    if not lent:
        return ("Rattle.vector.proofs.Decided.Decided", promise)
    at_exit = f"(λ κ s. {lent[0] if len(lent) == 1 else '(' + ', '.join(lent) + ')'})"
    return ("Rattle.vector.proofs.Decided.DecidedLent", f"{promise} {at_exit}")


def wanted_at(crate, place, taken):
    """The same of a method of a trait; where it takes a closure, of one that computes a function."""
    promise = f"Rattle.{crate}.proofs.{'.'.join(place)}.Reads.Learnt"
    if not taken:
        return ("Rattle.vector.proofs.Decided.Decided", promise)
    return ("Rattle.vector.proofs.Decided.DecidedWhere", f"{COMPUTES[taken]} ({promise} T L C F d1 d2 d3 K d4)")


def main():
    of_libraries, of_exports = libraries()
    of_traits = traits(of_libraries)
    bad, total = [fault for crate in of_exports for fault in unlike(crate)], 0
    exports = sum(len(promised(crate)) for crate in of_exports)
    for crate in of_libraries:
        said, known = lines(crate), set()
        listed = [(path, place, line, wanted(crate, place, taken, generic), requires) for path, place, line, taken, generic, requires in functions(crate)]
        listed += [(path, place, line, wanted_at(crate, place, taken), asks) for path, place, line, (taken, asks) in implemented(crate, of_traits)]
        for path, place, line, want, requires in listed:
            total += 1
            # a definition of that name can stand in the way
            if line not in said and line + "_lem" in said:
                line += "_lem"
            known.add(line)
            if "-q" not in sys.argv:
                print(f"{crate:9} {line:32} {said.get(line, ('no line', ''))[0].split('.')[-1]}")
            if requires:
                bad.append(f"{path}: {place[-1]} has a `requires`")
            if line not in said:
                bad.append(f"{path}: {place[-1]} has no line {line} in proofs/Unique.antt")
            elif said[line] != want:
                bad.append(f"{path}: the line {line} says another thing: {' '.join(said[line])}")
        # a generic function's line can stand again at one type
        generic = tuple(want[1].removesuffix("..)") for *_, want, _ in listed if want[1].endswith(" ..)"))
        bad += [f"{crate}: the line {line} is of no public function" for line in said if line not in known and not said[line][1].startswith(generic)]
    for line in bad:
        print("LOOSE:", line)
    print(f"{total} public functions, {exports} exports, {len(bad)} faults")
    sys.exit(1 if bad or not total or not exports else 0)


main()
