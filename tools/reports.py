#!/usr/bin/env python3
"""What comesback and the library `report` must write, worked out with fractions and permutations, apart from the crate's own code.

Usage: tools/reports.py            prints the reports, with their lines, as crates/cases/stdout has them
       tools/reports.py table      prints the lines as crates/cases/src/reports.rt has them
       tools/reports.py stdin      prints the lines as crates/comesback/stdin has them
       tools/reports.py stdout     prints the verdicts on them, and the totals, as crates/comesback/stdout has them
       tools/reports.py check      fails where one of these files has something else, or README.md has another report
       tools/reports.py run FILE   runs the program FILE, comesback as it was built, on words and on lines, and fails where it writes something else
"""
import random
import re
import subprocess
import sys
from fractions import Fraction
from itertools import permutations, zip_longest

LINES = [
    "2 3 5 1 2", "2 2 0 0 4", "2 0 1 1 0", "2 -1 0 0 1", "2 3 0 0 1", "2 6 2 4 -10", "2 1024 0 0 1024", "2 1024 -1024 1024 1024",
    "3 1 0 0 0 1 0 10 20 1", "3 32 0 0 0 64 0 640 1024 1", "3 0 1 0 -1 0 0 10 20 1", "3 2 0 0 0 3 0 0 0 1", "3 48 0 0 0 48 0 0 0 1",
    "4 2 0 0 0 0 2 0 0 0 0 2 0 4 6 8 1", "4 1024 0 0 0 0 1024 0 0 0 0 1024 0 0 0 0 -1024",
    "4 0 1 0 0 1 0 0 0 0 0 1 0 0 0 0 3", "2 1 2 2 4", "3 0 0 0 0 0 0 0 0 0",
    "2 1025 0 0 1", "2 1 0 0 -1025", "2 1 0 0 1000000000000000000000000000000000001024", "2 0001024 -0 00 -01",
    "2 +5 0 0 1", "2 0 5x 0 1", "2 0 0 0.5 1", "2 - 0 0 1", "2 1 0 0 --1", "3 1 0 0 0 1 0 0 0 1e3", "4 1 0 0 0 0 1 0 0 0 0 1 0 0 0 x 1",
    "2 1x 0 0 1025", "2 1  0 \t0  1", " 2 1 0 0 1 ", "2\t1\t0\t0\t1\r", "2 1  0 1", "2 1 0 0", "2 1 0 0 1 0", "3 1 0 0 1", "4", "2", "", " \t",
    "5 1 0 0 1", "02 1 0 0 1", "-2 1 0 0 1", "two 1 0 0 1", "--help", "3 1 --help", "-help", "--helps",
]

# Lines beside these that standard input has: as long as there is room for, and longer; and one that nothing ends.
LONG = ["2 1 0 0 " + "1".rjust(4088, "0"), "2 1 0 0 " + "1".rjust(4089, "0")]
LAST = "2 1 0 0 2"

HELP = """comesback ORDER ENTRY..: the report of one matrix, and whether what it moves comes back
comesback: reads one matrix a line, ORDER ENTRY.., from standard input; answers one verdict a line, then the totals
ORDER is 2, 3 or 4; the entries stand column by column and are whole numbers from -1024 to 1024
entries are plain numbers: who holds scales as whole sixty-fourths holds offsets so too,
the last row stays 0, 0, 1, and what comes out is in sixty-fourths""".splitlines()


def signed_sum(columns):
    n, total = len(columns), 0
    for order in permutations(range(n)):
        sign = (-1) ** sum(order[i] > order[j] for i in range(n) for j in range(i + 1, n))
        for row, column in enumerate(order):
            sign *= columns[column][row]
        total += sign
    return total


def fits(word):
    digits = word[1:] if word.startswith("-") else word
    return digits != "" and all(d in "0123456789" for d in digits) and int(digits) <= 1024


def words_of(line):
    return [word for word in re.split("[ \t\r]", line) if word]


def fraction(q):
    return str(q.numerator) if q.denominator == 1 else f"{q.numerator}/{q.denominator}"


def told(line):
    """The report of a line that is no call for help: its lines, and the kind of its verdict."""
    order, *words = words_of(line) or [""]
    if order not in ("2", "3", "4"):
        return ["expected an order first, 2, 3 or 4, then the entries column by column"], "not read"
    n = int(order)
    if len(words) != n * n:
        return [f"expected {n * n} whole numbers after the order, column by column"], "not read"
    for place, word in enumerate(words):
        if not fits(word):
            where = f"column {place // n}, row {place % n} (both counted from 0)"
            return [f"refusal 6: the entry at {where} is not a whole number of magnitude at most 1024"], "refusal 6"
    numbers = [int(w) for w in words]
    m = [numbers[c * n:c * n + n] for c in range(n)]
    out = ["the matrix, from entries given column by column:"]
    out += ["".join(f" {m[c][r]}" for c in range(n)) for r in range(n)]
    s = signed_sum(m)
    out.append(f"its signed sum: {s}")
    if s == 0:
        return out + ["refusal 2: the signed sum is zero, so there is no inverse"], "refusal 2"
    power = abs(s) & (abs(s) - 1) == 0
    out.append("the inverse is exact, since the sum is plus or minus a power of two:" if power
               else "the inverse is not exact, since the sum is not plus or minus a power of two; as fractions:")

    def cofactor(c, r):
        rest = [[m[d][t] for t in range(n) if t != r] for d in range(n) if d != c]
        return (-1) ** (c + r) * signed_sum(rest)

    inverse = [[Fraction(cofactor(r, c), s) for r in range(n)] for c in range(n)]
    for c in range(n):
        for r in range(n):
            assert sum(m[k][r] * inverse[c][k] for k in range(n)) == (c == r)
    out += ["".join(" " + fraction(inverse[c][r]) for c in range(n)) for r in range(n)]
    limit = 64 if n == 4 else 32768
    if power:
        return out + [f"what it moves comes back exactly: every whole vector with entries up to {limit}"], "come back exactly"
    return out + ["what it moves need not come back exactly, since the inverse is rounded"], "need not"


def report(line):
    return HELP if "--help" in words_of(line) else told(line)[0]


def verdict(line):
    """The verdict on a line and its kind; a line of more than 4096 bytes is not read."""
    if len(line) > 4096:
        return "expected a line of at most 4096 bytes", "not read"
    lines, kind = told(line)
    return lines[-1], kind


def answered(lines):
    """The verdicts, and the totals."""
    verdicts = [verdict(line) for line in lines]
    kinds = ["come back exactly", "need not", "refusal 2", "refusal 6", "not read"]
    totals = "; ".join([f"lines: {len(lines)}"] + [f"{kind}: {sum(k == kind for _, k in verdicts)}" for kind in kinds])
    return "".join(text + "\n" for text, _ in verdicts) + totals + "\n"


def reports():
    return "".join(f"comesback {line}\n" + "\n".join(report(line)) + "\nreport: ok\n" for line in LINES)


def table():
    rows = "".join('    "' + line.replace("\t", "\\t").replace("\r", "\\r") + '",\n' for line in LINES)
    return f"const LINES: [&str; {len(LINES)}] = [\n{rows}];\n"


def stdin():
    return "".join(line + "\n" for line in LINES + LONG) + LAST


def stdout():
    return answered(LINES + LONG + [LAST])


def text(path):
    return open(path, encoding="utf-8", newline="").read()


def between(path, first, last):
    """A file's lines from the first that begins with one text to the last that is another."""
    lines = text(path).split("\n")
    begins = [i for i, line in enumerate(lines) if line.startswith(first)]
    ends = [i for i, line in enumerate(lines) if line == last]
    return "\n".join(lines[begins[0] : ends[-1] + 1]) + "\n" if begins and ends else ""


def readme():
    """The reports that README.md shows: what stands under a line with the command and its words, up to a line that is not set in."""
    command = r"(?:\(cd crates/comesback && rt run -- (\d[-\d ]*)\)|crates/comesback/out/comesback (\d[-\d ]*))"
    shown = re.findall(rf"^    {command}\n\n((?:    .*\n)+)", text("README.md"), re.M)
    return [(built or ran, re.sub("(?m)^    ", "", block)) for built, ran, block in shown]


def same(name, found, expected):
    pairs = zip_longest(found.split("\n"), expected.split("\n"))
    different = [pair for pair in pairs if pair[0] != pair[1]]
    if different:
        print(f"DIFFERENT: {name} has {different[0][0]!r}, and it is to be {different[0][1]!r}")
        sys.exit(1)


def check():
    same("crates/cases/stdout", between("crates/cases/stdout", "comesback ", "report: ok"), reports())
    same("crates/cases/src/reports.rt", between("crates/cases/src/reports.rt", "const LINES", "];"), table())
    same("crates/comesback/stdin", text("crates/comesback/stdin"), stdin())
    same("crates/comesback/stdout", text("crates/comesback/stdout"), stdout())
    shown = readme()
    if not shown:
        print("DIFFERENT: README.md shows no report")
        sys.exit(1)
    for words, block in shown:
        same(f"README.md, comesback {words}", block, "\n".join(report(words)) + "\n")
    print(f"{len(LINES)} lines, their reports and verdicts, and {len(shown)} reports of README.md: the files have what is worked out here")


def drawn(rng):
    """A line with a matrix in it: small entries, entries at the limit, now and then one beyond it or a word too many."""
    n = rng.choice([2, 3, 4])
    most = rng.choice([1, 3, 64, 1024])
    words = [str(rng.choice([rng.randint(-most, most), 0, 1, rng.choice([64, 1024, -1024])])) for _ in range(n * n)]
    if rng.random() < 0.1:
        words[rng.randrange(n * n)] = rng.choice(["1025", "-1025", "0.5", "x", "-", "99999999999999999999"])
    if rng.random() < 0.05:
        words.append("1")
    return " ".join([str(n)] + words)


def run(program):
    def answer(words, given):
        done = subprocess.run([program, *words], input=given, stdout=subprocess.PIPE, encoding="latin-1", timeout=60)
        return done.stdout

    rng = random.Random(11)
    many = [drawn(rng) for _ in range(3000)]
    asked = [line for line in LINES if "\t" not in line and "\r" not in line] + many[:200]
    for line in asked:
        for words in (line.split(" "), [line], [" ", line, ""]):
            same(f"comesback {words}", answer(words, "2 1 0 0 1\n"), "\n".join(report(line)) + "\n")
    same("comesback on words of 65536 bytes", answer(["2", "0" * 65536], ""), "expected words of fewer than 65536 bytes in all\n")
    same("comesback on no line", answer([], ""), answered([]))
    same("comesback on a blank line", answer([], "\n"), answered([""]))
    for lines in (LINES + LONG, many, ["0" * 200000, "2 1 0 0 1"]):
        same("comesback on lines", answer([], "".join(line + "\n" for line in lines)), answered(lines))
        same("comesback on lines, the last not ended", answer([], "\n".join(lines + [LAST])), answered(lines + [LAST]))
    print(f"{len(asked)} lines as words in three ways, and {len(LINES + LONG + many) + 2} lines read: comesback writes what is worked out here")


if __name__ == "__main__":
    if sys.argv[1:] == ["check"]:
        check()
    elif len(sys.argv) == 3 and sys.argv[1] == "run":
        run(sys.argv[2])
    elif sys.argv[1:] in ([], ["table"], ["stdin"], ["stdout"]):
        sys.stdout.write({"": reports, "table": table, "stdin": stdin, "stdout": stdout}["".join(sys.argv[1:])]())
    else:
        sys.exit(__doc__)
