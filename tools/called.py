#!/usr/bin/env python3
"""Fails where a public function is called by no program that is run.

Usage: tools/called.py        it runs `rt check --list-calls` in the programs, the boundary and its exports, which proves them where they are not proved yet

- Every public function of the libraries is called by `cases`, `replay`, `comesback`, `records` or `entrywise`.
- Every method and constant of a public trait is used by one of these at each record that has it, and so is every
  conversion between two records. A function of a program names it and the record, or names it and is generic over
  vectors or over matrices, unless it is a step of a library's own function (`map`, `zip`, `inverse_by`, ..), which names it.
- The in-place swaps are called by functions of the boundary.
- Every function of the boundary is handed on by its exports, crates/migthumo_c.
- Every export is called by the C program, include/test/migthumo_test.c.

Which functions of other crates a program calls is what the compiler lists of its proved code. It lists the calls of all
the program's own functions; that `main` reaches each of these is read off the sources, by name, and the script fails
where it can't see it. For the boundary its public functions stand in the place of `main`.
"""
import glob
import os
import re
import subprocess
import sys

PROGRAMS = ["cases", "replay", "comesback", "records", "entrywise"]
# the type parameters of a program's functions that go over every vector, and over every matrix
GENERIC = {"vector": r"\bV: ", "matrix": r"\bM: ", "engine": r"\bM: "}
IN_PLACE = ["matrix::Matrix4::swap_rows_mut", "matrix::Matrix4::swap_columns_mut", "matrix::Matrix4::swap_elements_mut"]
BOUNDARY = "migthumo"
EXPORTS = "migthumo_c"
C_PROGRAM = "include/test/migthumo_test.c"


def short(path):
    """A function's name without its modules: matrix::records::Matrix2::add is matrix::Matrix2::add."""
    first, *modules, last = path.split("::")
    return "::".join([first] + [m for m in modules if m[0].isupper()] + [last])


def libraries():
    """The library crates that crates.txt names, but for the boundary."""
    text = re.sub(r"#[^\n]*", "", open("crates.txt", encoding="utf-8").read())
    names = [name for name in re.findall(r"^\s*(\w+)\b[^:\n]*:", text, re.M) if os.path.exists(f"crates/{name}/src/lib.rt")]
    return [name for name in names if name not in (BOUNDARY, EXPORTS)]


def public(crate):
    """The crate's public functions, by their short names."""
    names = []
    for path in sorted(glob.glob(f"crates/{crate}/src/**/*.rt", recursive=True)):
        owner = ""
        for line in open(path, encoding="utf-8"):
            if re.match(r"impl \w+|\}", line):
                owner = line.split()[1] + "::" if line.startswith("impl") else ""
            if function := re.match(r"\s*pub (?:extern \"C\" )?fn (\w+)", line):
                names.append(f"{crate}::{owner}{function.group(1)}")
            elif re.match(r"\s*pub\s.*\bfn\b", line):
                sys.exit(f"{path}: can't read {line.strip()}")
    if len(names) != len(set(names)):
        sys.exit(f"{crate}: two public functions of one name")
    return names


def source(path):
    """A file's text without comments and texts."""
    return re.sub(r"//[^\n]*|b?\"(?:\\.|[^\"\\])*\"|b'(?:\\.|[^'\\])'", "", open(path, encoding="utf-8").read())


def sources(crate):
    """The crate's files, each path with its text."""
    return {path: source(path) for path in sorted(glob.glob(f"crates/{crate}/src/**/*.rt", recursive=True))}


def of_traits(crates):
    """The public traits of the crates: each one's crate, and the names of its methods and constants."""
    found = {}
    for crate in crates:
        for text in sources(crate).values():
            for trait, body in re.findall(r"^pub trait (\w+)[^{]*\{(.*?)^\}", text, re.M | re.S):
                found[trait] = (crate, re.findall(r"^    (?:fn|const) (\w+)", body, re.M))
    return found


def at_records(crate, traits):
    """Each method and constant of a public trait at each record of the crate that has it, and each conversion: the compiler's name, the trait, the method, the record."""
    for text in sources(crate).values():
        for origin, record in re.findall(r"^impl From<(\w+)> for (\w+)", text, re.M):
            yield f"{crate}::{record}From{origin}::from", None, "from", record
        for trait, number, record in re.findall(r"^impl (\w+)(?:<(\d+)>)? for (\w+)", text, re.M):
            for name in traits.get(trait, (None, []))[1]:
                yield f"{crate}::{record}{trait}{number}::{name}", trait, name, record


def named(name, record, crate, texts):
    """Whether one of the functions' texts calls the function, or uses the constant, by name, and speaks of the record or of every such one."""
    of_it = re.compile(rf"\b{record}\b|{GENERIC[crate]}")
    return any(re.search(rf"(?:\.|::){name}\b(?!\s*:)", text) and of_it.search(text) for text in texts)


def calls(crate):
    """The short names of the functions of other crates that the crate's functions call."""
    check = subprocess.run(["rt", "check", "--list-calls"], cwd=f"crates/{crate}", stdout=subprocess.PIPE, text=True)
    if check.returncode != 0:
        sys.exit(f"{check.stdout}rt check --list-calls failed in crates/{crate}")
    found = set()
    for head, listed in re.findall(r"^calls (\w+: \d+) functions?\n((?:  .*\n)*)", check.stdout, re.M):
        names = [line.strip() for line in listed.splitlines()]
        if f"{names[0].split('::')[0] if names else ''}: {len(names)}" != head:
            sys.exit(f"crates/{crate}: can't read the calls of {head}")
        found.update(map(short, names))
    if not found:
        sys.exit(f"crates/{crate}: rt check --list-calls lists no call")
    return found


def bodies(crate):
    """Each function of the crate, as its module, its type and its name, with the text of its body; and what each module imports by name."""
    out, imports = {}, {}
    for path in sorted(glob.glob(f"crates/{crate}/src/**/*.rt", recursive=True)):
        text = re.sub(r"//[^\n]*|b?\"(?:\\.|[^\"\\])*\"|b'(?:\\.|[^'\\])'", "", open(path, encoding="utf-8").read())
        module = os.path.basename(path)[:-3]
        imports[module] = set()
        for of, listed in re.findall(r"^\s*use (?:crate::)?(\w+)::(\w+|\{[^}]*\});", text, re.M):
            imports[module].update((of, name) for name in re.findall(r"\w+", listed))
        owner, lines, at = "", text.split("\n"), None
        for line in lines:
            if head := re.match(r"(?:impl(?:<[^>]*>)?|(?:pub(?:\([^)]*\))? )?trait) (?:[\w:<>]+ for )?\[?(\w+)|\}", line):
                owner = head.group(1) or ""
            if head := re.match(r"\s*(?:pub(?:\([^)]*\))? )?(?:extern \"C\" |extern  )?fn (\w+)", line):
                at = (module, owner, head.group(1))
                if at in out:
                    sys.exit(f"{path}: two functions of the name {at[2]}")
                out[at] = ""
                line = line[head.end() :]
            if at:
                out[at] += line + "\n"
    return out, imports


def unreached(crate, starts):
    """The crate's functions of which the sources don't show that one of these calls them, itself or through others."""
    of, imports = bodies(crate)
    waiting = [f for f in of if f[2] in starts]
    if len(waiting) != len(starts):
        sys.exit(f"crates/{crate}: can't find {starts}")
    found = set(waiting)
    while waiting:
        here = waiting.pop()
        for f in of.keys() - found:
            module, owner, name = f
            ways = [rf"\.{name}\s*\(", rf"\b(?:{owner}|Self|[A-Z])::{name}\b"] if owner else [rf"\b{module}::{name}\b"]
            if name == "fmt":
                ways.append(r"\b(?:println|print|write|format_args)!")
            if not owner and (module == here[0] or (module, name) in imports[here[0]]):
                ways.append(rf"(?<![\w.:]){name}\b")
            if any(re.search(way, of[here]) for way in ways):
                found.add(f)
                waiting.append(f)
    return ["::".join(filter(None, f)) for f in sorted(of.keys() - found)]


def main():
    bad, by_programs = [], set()
    for program in PROGRAMS:
        if not os.path.exists(f"crates/{program}/stdout"):
            bad.append(f"{program} is not run, since it has no file stdout")
        bad += [f"{f} of the program {program}, as far as the sources show" for f in unreached(program, ["main"])]
        by_programs |= calls(program)
    functions = [name for crate in libraries() for name in public(crate)]
    for name in functions:
        if name not in IN_PLACE and name not in by_programs:
            bad.append(f"{name} is called by neither {' nor '.join(PROGRAMS)}")
    traits = of_traits(libraries())
    of_programs = [text for program in PROGRAMS for text in bodies(program)[0].values()]
    # a step of another function: the sources of a library name it on a record
    of_libraries = [text for crate in libraries() for text in sources(crate).values()]
    at = [(crate, *found) for crate in libraries() for found in at_records(crate, traits)]
    if not at:
        sys.exit("there is no record of a public trait")
    for crate, name, trait, method, record in at:
        if name not in by_programs:
            bad.append(f"{name} is used by neither {' nor '.join(PROGRAMS)}")
        if trait is None:
            continue
        step = any(re.search(rf"(?:\bself\.|\bSelf::|\bColumn::|\bm\.|\b[MV]::){method}\b(?!\s*:)", text) for text in of_libraries)
        if not named(method, record, crate, of_programs) and not step:
            bad.append(f"{name} is named at that record by none of the programs, and is no step of another function")
    handed_on, exported, by_exports = public(BOUNDARY), public(EXPORTS), calls(EXPORTS)
    bad += [f"{name} is not called by {EXPORTS}" for name in handed_on if name not in by_exports]
    bad += [f"{f} of {BOUNDARY}, as far as the sources show" for f in unreached(BOUNDARY, [name.split("::")[-1] for name in handed_on])]
    by_boundary = calls(BOUNDARY)
    for name in IN_PLACE:
        if name not in functions or name not in by_boundary:
            bad.append(f"{name} is no public function, or the boundary doesn't call it")
    text = re.sub(r'/\*.*?\*/|//[^\n]*|"[^"\n]*"', "", open(C_PROGRAM, encoding="utf-8").read(), flags=re.S)
    for name in exported:
        if not re.search(rf"\b{short(name).split('::')[1]}\(", text):
            bad.append(f"{name} is not called by {C_PROGRAM}")
    for line in bad:
        print("NOT CALLED:", line)
    print(f"{len(functions)} public functions of the libraries, {len(at)} of their traits at the records, {len(exported)} of the boundary, {len(bad)} not called")
    sys.exit(1 if bad or not functions or not exported else 0)


main()
