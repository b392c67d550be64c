#!/usr/bin/env python3
"""Fails where a statement that stands in specs/ has no proof of that very type, or docs/PROMISES.md doesn't name the proof.

Usage: tools/statements.py

A statement is a type of specs/ that is there to be proved: those of demand 3 (every line of it is a field of the record
`Demand`, which `AtOrder2`, `AtOrder3` and `AtOrder4` name with their limits), the claims beside the promises, and those
of `slips`, where each definition under a comment '-- slip: ..' is to stand in a claim.
The gate checks the proofs; this script checks that none is missing.
"""
import glob
import re
import sys

DEMAND = "crates/engine/specs/Demand.antt"
# each statement with the very type that its proof is to have
STATEMENTS = {
    "engine": {
        "AtOrder2": "AtOrder2",
        "AtOrder3": "AtOrder3",
        "AtOrder4": "AtOrder4",
        "TableHolds": "TableHolds",
        "HoldsAll": "HoldsAll",
        "OneBitIsPower": "OneBitIsPower",
        "TakenExactly": "(limit : ℕ) → limit < 2 ^ 53 → TakenExactly limit",
        "CofactorsOverSum": "(n : ℕ) → 0 < n → (m : Matrix) → CofactorsOverSum n m",
    },
    "whole": {
        "ListsOrders": "(n : ℕ) → ListsOrders n (orders n)",
        "ZeroExactlyIf": "(n : ℕ) (m : Matrix) → ZeroExactlyIf n m",
    },
    "component": {"ReadExactly": "ReadExactly", "OwnBytesDecide": "OwnBytesDecide"},
    "reference": {"Claims": "Claims table", "Ways": "Ways"},
    "migthumo": {"CodeTells": "CodeTells"},
    "report": {
        "EveryReportFits": "EveryReportFits",
        "LowestTerms": "LowestTerms",
        "JoinedWords": "JoinedWords",
        "WordAdded": "WordAdded",
        "EndOfReport": "EndOfReport",
        "VerdictsFit": "VerdictsFit",
        "ComesBackHeld": "ComesBackHeld",
        "SaidIsTrue": "SaidIsTrue",
    },
    "slips": {
        "CannotPass": "CannotPass",
        "InverseSlips": "InverseSlips",
        "ProductSlips": "ProductSlips",
        "PlaceSlips": "PlaceSlips",
        "EngineSlips": "EngineSlips",
        "MoveSlips": "MoveSlips",
        "ComponentSlips": "ComponentSlips",
        "DemandSlips": "DemandSlips",
    },
}


def read(path):
    return open(path, encoding="utf-8").read()


def main():
    promises, bad, proved, told = read("docs/PROMISES.md"), [], 0, 0
    # every line of demand 3 is a field of the record that the orders name
    text = read(DEMAND)
    lines = re.findall(r"^abbrev pub (\w+) : .*Port.*→ Type 0$", text, re.M)
    fields = re.findall(r"^  pub [\w-]+ : (\w+) p", text[text.index("pub record Demand") :], re.M)
    words = ["WholeEntries", "SameMatrix", "SameVector", "WholeVector", "ExactInverse", "HasExactInverse"]
    for name in lines:
        if name not in fields and name not in words:
            bad.append(f"{DEMAND}: {name} is no field of Demand")
    # each statement has a proof of its type, and the promises name it
    for crate, names in STATEMENTS.items():
        specs = "\n".join(read(p) for p in glob.glob(f"crates/{crate}/specs/*.antt"))
        # the prover looks at the files that proofs/Lib.antt names
        listed = re.findall(r"^pub mod (\w+)$", read(f"crates/{crate}/proofs/Lib.antt"), re.M)
        proofs = {p: read(p) for p in (f"crates/{crate}/proofs/{name}.antt" for name in listed)}
        for name, type_ in names.items():
            if not re.search(r"^(?:abbrev |unfoldable )?pub (?:record )?%s\b" % name, specs, re.M):
                bad.append(f"{crate}: no statement {name} in specs/")
                continue
            found = [
                (m.group(1), p)
                for p, t in proofs.items()
                for m in re.finditer(r"^pub ([\w-]+) : %s$" % re.escape(type_), t, re.M)
            ]
            if not found:
                bad.append(f"{crate}: {name} has no proof")
            for proof, path in found:
                print(f"{crate} {name}: {proof} in {path}")
                proved += 1
                if f"`{proof}`" not in promises:
                    bad.append(f"docs/PROMISES.md doesn't name {proof}")
    # each slip is named by a claim of its file's record, that record is proved, and the promises name the slip
    for path in sorted(glob.glob("crates/slips/specs/*.antt")):
        text = read(path)
        slips = re.findall(r"^-- slip: .*\n(?:abbrev |unfoldable )?pub (\w+) :", text, re.M)
        records = re.findall(r"^pub record (\w+) : Type 0 where$", text, re.M)
        claims = " ".join(re.findall(r"^  pub [\w-]+ : (.*)$", text, re.M))
        bad += [f"{path}: {r} is no statement of tools/statements.py" for r in records if r not in STATEMENTS["slips"]]
        bad += [f"{path}: no claim names the slip {s}" for s in slips if not re.search(rf"\b{s}\b", claims)]
        bad += [f"docs/PROMISES.md doesn't name the slip {s}" for s in slips if f"`{s}`" not in promises]
        told += len(slips)
    for line in bad:
        print("MISSING:", line)
    print(f"{proved} proofs of statements, {told} slips with their claims, {len(bad)} missing")
    sys.exit(1 if bad or not proved or not told else 0)


main()
