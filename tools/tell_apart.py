#!/usr/bin/env python3
"""Tells mutants from the program that they were made from: runs the repository's own programs over both, on the same inputs.

Usage: tools/tell_apart.py RESULTS [NAME ..]

RESULTS is the file that tools/mutants.py writes; with names (a part of one will do), those mutants alone. Each mutant is put into a copy
of the repository, and the programs that reach its crate are run there by `rt try`, which proves nothing:
    bits, vector, bulk, engine, matrix    `replay` over its list: a line whose answer comes out otherwise names the function, the order
                                          and the input
    report                                `cases` and `comesback` over what they are run on in the gate: the first line of text that
                                          comes out otherwise, below the input that it answers
    migthumo                              a program that this script writes: each export at every order with right and wrong lengths, orders
                                          and places; the first call that comes out otherwise
What these write is compared with what they write of the sources as they stand, which the gate holds to answers worked out apart. Those
sources are proved to answer as their definitions say, so a difference shows that the promise rules the mutant out, whatever the
prover's reason was. Where none is found the line says `the same`: an equal program, as seen from outside, or one whose difference these
inputs don't meet; look at it. A mutant takes one to three minutes.
"""
import glob
import json
import os
import re
import shutil
import subprocess
import sys
import tempfile

import mutants as made

REPLAYED = ["bits", "vector", "bulk", "engine", "matrix"]
TOLD = {"report": ["cases", "comesback"]}
CHUNK = 200
# what the written program hands over: numbers of which no two are alike
NUMBERS = "3.0 5.0 1.0 2.0 7.0 -2.0 4.0 9.0 11.0 -6.0 8.0 0.0 -3.0 6.0 -5.0 13.0".split()
SCALARS = "1.5 -0.5 2.0 0.6 0.8".split()
RECORD = "0x00, 0x83, 0x00, 0x05, 0x00, 0x0a, 0xff, 0xec, 0x40, 0x00, 0x20, 0x00, 0xe0, 0x00, 0x10, 0x00"


def tried(top, program, cases):
    """What the program writes on each case, by the case's name; nothing where it does not end, or stops at a fault."""
    folder = tempfile.mkdtemp()
    for name, text in cases.items():
        with open(os.path.join(folder, name), "wb") as f:
            f.write(text)
    run = subprocess.run(["rt", "try", "--cases", folder], cwd=os.path.join(top, "crates", program), capture_output=True)
    shutil.rmtree(folder)
    parts = re.split(rb"^== (\S+)\n", run.stdout, flags=re.M)
    written = {name.decode(): text for name, text in zip(parts[1::2], parts[2::2])}
    if not re.search(rb"^cases=", run.stdout + run.stderr, re.M):
        sys.exit(f"{program}: rt try did not run it:\n{(run.stdout + run.stderr).decode('utf-8', 'replace')[-2000:]}")
    return {name: written.get(name, b"") for name in cases}


def differ(report):
    """Whether a report of `replay` counts an answer that differs, or is none."""
    counted = re.search(rb"^total differ +(\d+)$", report, re.M)
    return counted is None or int(counted.group(1)) > 0


def by_replay(top):
    """A line of the list whose answer comes out otherwise, or None."""
    with open("crates/replay/stdin", "rb") as f:
        lines = [l for l in f.read().split(b"\n") if l and not l.startswith((b"#", b"planted"))]
    chunks = {f"{i:06}": b"\n".join(lines[i : i + CHUNK]) for i in range(0, len(lines), CHUNK)}
    for name, report in tried(top, "replay", chunks).items():
        if differ(report):
            single = {f"{i:06}": line for i, line in enumerate(chunks[name].split(b"\n"))}
            for i, one in tried(top, "replay", single).items():
                if differ(one):
                    return single[i].decode()
    return None


def by_text(top, programs):
    """The first line of text that comes out otherwise, and what it answers, or None."""
    for program in programs:
        path = f"crates/{program}/stdin"
        given = open(path, "rb").read() if os.path.exists(path) else b""
        with open(f"crates/{program}/stdout", "rb") as f:
            right = f.read().split(b"\n")
        ours = tried(top, program, {"all": given})["all"].split(b"\n")
        for i, line in enumerate(right):
            if i >= len(ours) or ours[i] != line:
                asked = next((l for l in reversed(right[: i + 1]) if l.startswith(b"comesback ")), b"line %d" % (i + 1))
                return f"{program}, {asked.decode()}: {(ours[i] if i < len(ours) else b'').decode('utf-8', 'replace')}"
    return None


def boundary_calls():
    """A call of each export, as it is told and as Rattle: with right arguments at every order, and with each wrong length, order and place."""
    for path in sorted(glob.glob("crates/migthumo/src/*.rt")):
        module = os.path.basename(path)[:-3]
        with open(path, encoding="utf-8") as f:
            text = f.read()
        for name, listed in re.findall(r'extern "C" fn (\w+)\(([^)]*)\)', text):
            taken = [tuple(p.strip().split(": ")) for p in listed.split(",") if p.strip()]
            ordered = any(n == "order" for n, _ in taken)
            for order in (2, 3, 4) if ordered else (4,):
                for wrong in range(len(taken) + 1):
                    yield call(f"migthumo::{module}::{name}", taken, order, wrong)


def call(path, taken, order, wrong):
    """The call's arguments, as Rattle; the one numbered `wrong` is a length one less, a place or an order that is too large."""
    lets, args, shown, scalars = [], [], [], iter(SCALARS)
    small = order - 1 if "move_points" in path else order
    for i, (name, type_) in enumerate(taken):
        bad = i == wrong
        if type_ == "usize" and name in ("order", "to"):
            value = order + (name == "to") + 3 * bad
            args.append(str(value))
        elif type_ == "usize":
            args.append(str(order + i if bad else 0 if name == "at" else i % max(order, 1)))
        elif type_ == "f64":
            args.append("0.0" if bad else next(scalars))
        elif type_ == "&mut Matrix4":
            lets.append(f"let mut m = matrix::Matrix4::new({', '.join(NUMBERS)});")
            args.append("&mut m")
            shown += [f"bits::pattern(m.{c}.{r})" for c in "xyzw" for r in "xyzw"]
        elif type_ == "&[u8]":
            lets.append(f"let {name}: [u8; 16] = [{RECORD}];")
            args.append(f"&{name}[..{7 if bad else 16}]")
        elif type_ == "&[f64]":
            length = 2 * small if name in ("vectors", "points") else order * order
            values = [NUMBERS[(k + i) % 16] for k in range(max(length, 1))]
            lets.append(f"let {name}: [f64; {len(values)}] = [{', '.join(values)}];")
            args.append(f"&{name}[..{max(length - bad, 0)}]")
        else:
            kind = type_[6:-1]
            one = any(w in path for w in ("determinant", "signed_sum", "undoable"))
            length = 3 if name == "head" else 9 if "component" in path else 1 if one else 2 * small if "move_" in path else order if re.search("::migthumo_(row|diagonal)$", path) else (order + 1) ** 2 if "embed" in path else 4 if path.endswith("from_angle") else order * order
            zero = "9.0" if kind == "f64" else "9"
            lets.append(f"let mut {name}: [{kind}; {max(length, 1)}] = [{zero}; {max(length, 1)}];")
            args.append(f"&mut {name}[..{max(length - bad, 0)}]")
            shown += [f"bits::pattern({name}[{k}])" if kind == "f64" else f"{name}[{k}]" for k in range(length)]
    told = f"{path.split('::')[-1]}({', '.join(args)}), order {order}"
    shown = "".join(f'    print!(rt; " {{}}", {s})?;\n' for s in shown)
    return told, "".join(f"    {l}\n" for l in lets) + f'    let code = {path}({", ".join(args)});\n    print!(rt; "{{code}}")?;\n{shown}    println!(rt; "")\n'


def boundary_program(top):
    """Writes the program of these calls into a copy: it makes the call of the number of bytes that it reads. Answers what each is told as."""
    calls = list(boundary_calls())
    os.makedirs(os.path.join(top, "crates", "told", "src"))
    with open(os.path.join(top, "crates.txt"), "a", encoding="utf-8") as f:
        f.write("told: vector matrix migthumo bits\n")
    with open(os.path.join(top, "crates", "told", "src", "main.rt"), "w", encoding="utf-8") as f:
        f.write("#![tactic(auto)]\n\nuse std::io;\nuse std::io::Read;\n\n")
        for i, (_, body) in enumerate(calls):
            f.write(f"fn call{i}(rt: &impl Print) -> io::Result<()> {{\n{body}}}\n\n")
        f.write("fn main(rt: HostRuntime) -> io::Result<()> {\n    let mut bytes = [0u8; 4096];\n    match rt.reader().read(&mut bytes)? {\n")
        f.write("".join(f"        {i} => call{i}(&rt),\n" for i in range(len(calls))) + "        _ => Ok(()),\n    }\n}\n")
    return [told for told, _ in calls]


def boundary_answers(top):
    """What each call gives, by what it is told as; nothing where it stops at a fault."""
    calls = boundary_program(top)
    ours = tried(top, "told", {f"{i:06}": b"x" * i for i in range(len(calls))})
    return {f"{told} [{i}]": ours[f"{i:06}"] for i, told in enumerate(calls)}


def by_boundary(top, right):
    """The first call of an export that comes out otherwise than in the sources as they stand, or None."""
    for told, answer in boundary_answers(top).items():
        if answer != right[told]:
            return f"{told}: {answer.decode().strip() or 'stops at a fault'}"
    return None


def boundary_right():
    """What the calls give of the sources as they stand."""
    work = tempfile.mkdtemp()
    try:
        return boundary_answers(made.copied(work))
    finally:
        shutil.rmtree(work)


def difference(m, of_boundary):
    """What tells the mutant apart, or None."""
    work = tempfile.mkdtemp()
    top = made.copied(work)
    path = os.path.join(top, "crates", m.crate, "src", m.file)
    with open(path, encoding="utf-8") as f:
        text = f.read()
    with open(path, "w", encoding="utf-8") as f:
        f.write(made.apply(text, m.edits))
    for program in glob.glob(os.path.join(top, "crates", "*", "stdin")):
        os.remove(program)
    try:
        if m.crate == "migthumo":
            return by_boundary(top, of_boundary)
        return by_replay(top) if m.crate in REPLAYED else by_text(top, TOLD[m.crate])
    finally:
        shutil.rmtree(work)


def main():
    """Prints a line for each mutant of the results."""
    rows = [json.loads(l) for l in open(sys.argv[1], encoding="utf-8")]
    rows = [r for r in rows if r["verdict"] != "no program" and (not sys.argv[2:] or any(n in r["name"] for n in sys.argv[2:]))]
    every = {m.name: m for crate in {r["crate"] for r in rows} for m in made.mutants(crate)}
    of_boundary = boundary_right() if any(r["crate"] == "migthumo" for r in rows) else {}
    same = 0
    for row in rows:
        m = every[row["name"]]
        found = difference(m, of_boundary)
        same += found is None
        print(f"{row['verdict']}: {m.name}: {m.old} -> {m.new}: " + ("the same" if found is None else "differs at " + found[:200]), flush=True)
    print(f"{len(rows)} mutants, {len(rows) - same} told apart, {same} the same")


main()
