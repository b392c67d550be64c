#!/usr/bin/env python3
"""Makes wrong programs from src/ by itself, has the prover check them, and lists those that it accepts.

Usage: tools/mutants.py [--seed N] [--count N] [--work DIR] [--resume FILE] [--list] [--only NAME ..] [CRATE ..]

    --seed N       the draw (default 1); the same seed over the same sources draws the same mutants
    --count N      how many programs to try over all crates (default 150); each crate gets its share, and in a crate
                   each kind its turn
    --work DIR     where the copy of the repository stands (default: a new temporary folder); never the repository
    --resume FILE  the results, a line for each mutant; what it has is not tried again (default: DIR/mutants.jsonl)
    --list         print every mutant of the crates and try none
    --only NAME    try every mutant with this name and no others (a part of a name will do; may be given again)

The crates by default: bits, vector, bulk, engine, matrix, migthumo, report. `whole`, `exact`, `reference` and `slips` have no code.
The programs `cases`, `replay` and `comesback` are left out: what they promise is what they write, which the gate compares and no prover.

A mutant changes the body of one function, public or private, or the value of one constant; never a contract:
    operand    an operand exchanged for its neighbour: the two of - / % < <= (those of + * == != commute: the same
               program), one of the two written twice, two neighbours among arguments, elements or fields, and x for y,
               y for z, z for w of a record
    sign       + for - and back, or a sign left out
    times      * for / and back
    column     a column for a row: m[c][r] for m[r][c], .x.y for .y.x, the numbers of a Column and a Row
    less       < for <=, > for >=, and back
    equal      == for != and back
    constant   a number moved by one
    statement  a statement left out (not a `let`, whose name would be missing)
    arms       two arms of a match, or of an if, exchanged
Its name is its crate, file and function, its kind, and its place: line of the body, column, and which one there.

Each function is proved by itself against the contracts of those that it calls, so many mutants go into one check, at most
one to a function; only what the check says of that very function counts. A constant counts as every function that names it.
The verdict of each:
    fact       refused: a need of that function is not proved
    shape      refused: its proof file doesn't fit the code any more (a need has another name or another form); this shows
               nothing about the promise
    accepted   a survivor: proved, or wanting only in that a function which it calls isn't; it is tried once more with
               survivors alone
    no program the front end refuses it; another is drawn in its place
The exit status is 1 where a survivor is not in the list EQUAL.
"""
import argparse
import collections
import glob
import json
import os
import random
import re
import shutil
import subprocess
import sys
import tempfile
import time

from wrong_programs import name_of

CRATES = ["bits", "vector", "bulk", "engine", "matrix", "migthumo", "report"]
KINDS = ["operand", "sign", "times", "column", "less", "equal", "constant", "statement", "arms"]
# survivors that are equal programs, by the start of their names, each with the reason: none in today's sources so far
EQUAL = {}
# what the prover says where a proof's form, and no fact, is at fault: a need or a hypothesis of that name is not there, or a
# rewriting finds nothing to rewrite
SHAPE = [
    r"can be named",
    r"has no field `",
    r"has no `",
    r"is not in scope",
    r"needs a function \(or path\) type to bind",
    r"`rw`: no part of the goal",
    r"`rw`: no occurrence of the path's left endpoint",
]
FIELDS = "xyzw"
EXCHANGES = {"+": "-", "-": "+", "*": "/", "/": "*", "<": "<=", "<=": "<", ">": ">=", ">=": ">", "==": "!=", "!=": "==", "+=": "-=", "-=": "+=", "*=": "/=", "/=": "*="}
KIND_OF = {"+": "sign", "-": "sign", "+=": "sign", "-=": "sign", "*": "times", "/": "times", "*=": "times", "/=": "times", "<": "less", "<=": "less", ">": "less", ">=": "less", "==": "equal", "!=": "equal"}
POWER = {"*": 7, "/": 7, "%": 7, "+": 6, "-": 6, "<<": 5, ">>": 5, "&": 5, "^": 5, "|": 5, "<": 4, "<=": 4, ">": 4, ">=": 4, "==": 4, "!=": 4, "&&": 3, "||": 2, "=": 1, "+=": 1, "-=": 1, "*=": 1, "/=": 1}
TOKEN = re.compile(r"(?P<skip>\s+|//[^\n]*)|b?\"(?:[^\"\\]|\\.)*\"|b'(?:[^'\\]|\\.)'|0x[0-9a-f_]+|\d[\d_]*\.\d+(?:e-?\d+)?|\d[\d_]*(?:[iu](?:8|16|32|64|size))?|\w+|::|->|=>|==|!=|<=|>=|<<|>>|&&|\|\||[-+*/]=|\.\.=?|.", re.S)

Node = collections.namedtuple("Node", "kind start end kids text")
Place = collections.namedtuple("Place", "crate file function start stop")
Mutant = collections.namedtuple("Mutant", "name crate file kind function edits touches old new")


class Parser:
    """A body of Rattle as a tree of Nodes, each with the span of its text."""

    def __init__(self, text, start, stop):
        """Takes the tokens between start and stop."""
        self.text, self.i = text, 0
        self.tokens = [(m.group(), m.start(), m.end()) for m in TOKEN.finditer(text, start, stop) if not m.group("skip")]
        self.tokens.append(("", stop, stop))

    def peek(self, n=0):
        """The n-th token from here."""
        return self.tokens[min(self.i + n, len(self.tokens) - 1)][0]

    def here(self):
        """Where the next token starts."""
        return self.tokens[self.i][1]

    def take(self, wanted=None):
        """The next token, which is the one wanted."""
        token = self.tokens[self.i][0]
        if wanted is not None and token != wanted:
            raise ValueError(f"expected {wanted}, found {token} at {self.text.count(chr(10), 0, self.here()) + 1}")
        self.i += 1
        return token

    def node(self, kind, start, kids, text=""):
        """A node from start to the end of the last token."""
        return Node(kind, start, self.tokens[self.i - 1][2], kids, text)

    def skip_type(self):
        """Passes over a type."""
        while self.peek() in ("&", "mut"):
            self.take()
        if self.peek() == "[":
            self.take()
            self.skip_type()
            if self.peek() == ";":
                self.take()
                self.expression()
            return self.take("]")
        self.take()
        self.rest_of_path()

    def rest_of_path(self):
        """Passes over the other names of a path, and over types in angles."""
        while self.peek() in ("::", "<") and (self.peek() == "::" or self.peek(1)[:1].isupper()):
            if self.take() == "::" and self.peek() != "<":
                self.take()
                continue
            if self.peek() == "<":
                self.take()
            while self.peek() != ">":
                self.skip_type()
                if self.peek() == ",":
                    self.take()
            self.take(">")

    def skip_braces(self):
        """Passes over braces and what stands between them."""
        depth = 0
        while True:
            depth += {"{": 1, "}": -1}.get(self.take(), 0)
            if not depth:
                return

    def block(self):
        """Statements in braces; each statement that ends by ; or is no tail has the kind `statement`."""
        start, kids = self.here(), []
        self.take("{")
        while self.peek() != "}":
            kids.append(self.statement())
        self.take("}")
        return self.node("block", start, kids)

    def statement(self):
        """A let, a statement, or the tail of a block."""
        start = self.here()
        if self.peek() == "let":
            while self.peek() not in (":", "="):
                self.take()
            if self.take() == ":":
                self.skip_type()
                self.take("=")
            kids = [self.expression()]
            if self.peek() == "else":
                self.take()
                kids.append(self.block())
            self.take(";")
            return self.node("let", start, kids)
        value = self.expression()
        if self.peek() == ";":
            self.take()
            return self.node("statement", start, [value])
        if self.peek() != "}":
            return self.node("statement", start, [value])
        return value

    def expression(self, least=1, braces=True):
        """Operators that bind at least so tightly; braces: whether a record may be written here."""
        start = self.here()
        left = self.prefix(braces)
        while POWER.get(self.peek(), 0) >= least:
            if left.kind in ("if", "match", "while", "for", "block") and self.text[left.start - 1 : left.start].isspace() and self.peek() in "*-&":
                break
            op_at, op = self.here(), self.take()
            right = self.expression(POWER[op] + (POWER[op] > 1), braces)
            left = self.node("binary", start, [left, right], (op, op_at))
        return left

    def prefix(self, braces):
        """A sign or a reference before an operand, or the operand."""
        start = self.here()
        if self.peek() in ("-", "!", "*", "&"):
            op = self.take()
            if self.peek() == "mut":
                self.take()
            return self.node("unary", start, [self.prefix(braces)], op)
        return self.postfix(start, self.primary(braces))

    def postfix(self, start, value):
        """Fields, indices, calls and casts after an operand."""
        while True:
            token = self.peek()
            if token == ".":
                self.take()
                name_at, name = self.here(), self.take()
                if self.peek() == "(":
                    value = self.node("method", start, [value] + self.listed("(", ")"), name)
                else:
                    value = self.node("field", start, [value], (name, name_at))
            elif token == "[":
                value = self.node("index", start, [value] + self.listed("[", "]"))
            elif token == "(" and value.kind == "path":
                value = self.node("call", start, [value] + self.listed("(", ")"))
            elif token == "as":
                self.take()
                self.skip_type()
                value = self.node("cast", start, [value])
            elif token == "?":
                self.take()
                value = self.node("try", start, [value])
            else:
                return value

    def listed(self, opening, closing):
        """Expressions between commas, or at the ends of a range."""
        kids = []
        self.take(opening)
        while self.peek() != closing:
            if self.peek() != "..":
                kids.append(self.expression())
            if self.peek() in (",", ";", ".."):
                self.take()
        self.take(closing)
        return kids

    def primary(self, braces):
        """An operand without signs or what follows it."""
        start, token = self.here(), self.peek()
        if token == "(":
            return self.node("group", start, self.listed("(", ")"))
        if token == "[":
            return self.node("array", start, self.listed("[", "]"))
        if token == "{":
            return self.block()
        if token == "if":
            return self.branch()
        if token == "while":
            self.take()
            return self.node("while", start, [self.expression(braces=False), self.block()])
        if token == "for":
            while self.take() != "in":
                pass
            kids = [self.expression(braces=False)]
            if self.peek() == "..":
                self.take()
                kids.append(self.expression(braces=False))
            return self.node("for", start, kids + [self.block()])
        if token in ("|", "||"):
            return self.closure()
        if token == "match":
            return self.match()
        if token == "return":
            self.take()
            kids = [] if self.peek() in ";,}" else [self.expression()]
            return self.node("return", start, kids)
        self.take()
        if token[0].isdigit():
            return self.node("number", start, [], token)
        if token[-1] in "\"'":
            return self.node("text", start, [], token)
        if not re.match(r"\w", token):
            raise ValueError(f"unexpected {token} at {self.text.count(chr(10), 0, start) + 1}")
        while self.peek() == "::":
            self.rest_of_path()
        path = self.node("path", start, [])
        if braces and self.peek() == "{" and re.search(r"(^|::)[A-Z]\w*[a-z]\w*$", self.text[path.start : path.end]):
            return self.record(start)
        return path

    def record(self, start):
        """The fields of a record; one written without a value has the kind `short`."""
        kids = []
        self.take("{")
        while self.peek() != "}":
            at, name = self.here(), self.take()
            if self.peek() == ":":
                self.take()
                kids.append(self.expression())
            else:
                kids.append(self.node("short", at, [], name))
            if self.peek() == ",":
                self.take()
        self.take("}")
        return self.node("record", start, kids)

    def closure(self):
        """A closure: its parameters and its contract are passed over."""
        start = self.here()
        if self.take() == "|":
            while self.take() != "|":
                pass
        if self.peek() == "->":
            self.take()
            self.skip_type()
        while self.peek() in ("requires", "ensures"):
            while self.peek() != "{":
                self.take()
            self.skip_braces()
        return self.node("closure", start, [self.expression()])

    def branch(self):
        """An if, with its else; what an `if let` binds is passed over."""
        start = self.here()
        self.take("if")
        if self.peek() == "let":
            while self.take() != "=":
                pass
        kids = [self.expression(braces=False), self.block()]
        if self.peek() == "else":
            self.take()
            kids.append(self.branch() if self.peek() == "if" else self.block())
        return self.node("if", start, kids)

    def match(self):
        """A match: its subject, then its arms, each a pattern's numbers and a right-hand side."""
        start = self.here()
        self.take("match")
        kids = [self.expression(braces=False)]
        self.take("{")
        while self.peek() != "}":
            at, numbers = self.here(), []
            while self.peek() != "=>":
                number_at, token = self.here(), self.take()
                if token[0].isdigit():
                    numbers.append(self.node("number", number_at, [], token))
            self.take("=>")
            kids.append(self.node("arm", at, numbers + [self.expression()]))
            if self.peek() == ",":
                self.take()
        self.take("}")
        return self.node("match", start, kids)


def places(crate, file, text):
    """The body of each function that has one, and the value of each constant, of a file."""
    for m in re.finditer(r"^( *)(?:pub(?:\(crate\))? )?(?:extern \"C\" )?fn (\w+)[<(]", text, re.M):
        start = body_at(text, m.end() - 1)
        if start is not None:
            stop = text.index(f"\n{m.group(1)}}}\n", start) + 2 + len(m.group(1))
            yield Place(crate, file, owner(text, m) + m.group(2), start, stop)
    for m in re.finditer(r"^( *)(?:pub(?:\(crate\))? )?const (\w+): [^=\n]*= ", text, re.M):
        yield Place(crate, file, owner(text, m) + m.group(2), m.end(), text.index(";\n", m.end()))


def body_at(text, at):
    """Where the body of a function starts whose parameters start there, past its contract; None where it has none."""
    depth = 0
    while True:
        char = text[at]
        if not depth and char == ";":
            return None
        if not depth and char == "{" and not re.search(r"\b(?:requires|ensures)(?:\s+\w+)?\s*$", text[:at]):
            return at
        depth += {"(": 1, "[": 1, "{": 1, ")": -1, "]": -1, "}": -1}.get(char, 0)
        at += 1


def owner(text, m):
    """The impl or the trait that an item stands in, by the name that the check has for it, with ::, or nothing."""
    if not m.group(1):
        return ""
    head = re.findall(r"^(?:pub(?:\(crate\))? )?(?:impl|trait)\b.*\{$", text[: m.start()], re.M)[-1]
    head = re.sub(r"<'\w+>", "", head)
    if "trait" in head:
        return re.search(r"trait (\w+)", head).group(1) + "::"
    trait, _, record = head.removeprefix("impl ").removesuffix(" {").rpartition(" for ")
    return name_of(f"{trait}@{record}" if trait else record) + "::"


def walk(node):
    """A node and all below it."""
    yield node
    for kid in node.kids:
        yield from walk(kid)


def exchange(text, a, b):
    """Two edits that exchange the texts of two nodes."""
    return [(a.start, a.end, wrapped(text, b)), (b.start, b.end, wrapped(text, a))]


def wrapped(text, node):
    """The text of a node, in parentheses where it has an operator."""
    own = text[node.start : node.end]
    return f"({own})" if node.kind == "binary" else own


def moved(number):
    """A number moved by one, both ways where there are two."""
    if "." in number:
        value = float(number)
        return [f"{value + 1:.1f}"] + ([f"{value - 1:.1f}"] if value >= 1 else [])
    whole, suffix = re.fullmatch(r"(0x[0-9a-f_]+|[\d_]+)(\w*)", number).groups()
    value = int(whole.replace("_", ""), 0)
    form = hex if number.startswith("0x") else str
    return [form(value + 1) + suffix] + ([form(value - 1) + suffix] if value > 0 else [])


def changes(text, tree):
    """Each (kind, edits) that makes a mutant of a body."""
    for n in walk(tree):
        if n.kind == "binary":
            yield from of_operator(text, n)
        elif n.kind == "unary" and n.text == "-":
            yield "sign", [(n.start, n.start + 1, "")]
        elif n.kind == "number":
            for new in moved(n.text):
                yield "constant", [(n.start, n.end, new)]
        elif n.kind == "statement":
            yield "statement", [(n.start, n.end, "")]
        elif n.kind == "field":
            yield from of_field(n)
        elif n.kind == "index" and n.kids[0].kind == "index":
            yield "column", exchange(text, n.kids[1], n.kids[0].kids[1])
        elif n.kind in ("call", "method", "array", "record"):
            yield from of_list(text, n.kids if n.kind in ("array", "record") else n.kids[1:])
        elif n.kind == "match" or n.kind == "if" and len(n.kids) == 3:
            arms = [arm.kids[-1] for arm in n.kids[1:]] if n.kind == "match" else n.kids[1:]
            for i, a in enumerate(arms):
                for b in arms[i + 1 :]:
                    yield "arms", exchange(text, a, b)


def of_operator(text, n):
    """The changes of an operator and its operands."""
    (op, at), (a, b) = n.text, n.kids
    if op in EXCHANGES:
        yield KIND_OF[op], [(at, at + len(op), EXCHANGES[op])]
    if POWER[op] > 1:
        if op in ("-", "/", "%", "<", "<=", ">", ">="):
            yield "operand", exchange(text, a, b)
        yield "operand", [(a.start, a.end, wrapped(text, b))]
        yield "operand", [(b.start, b.end, wrapped(text, a))]


def of_field(n):
    """x for y, y for z, z for w and back; .x.y for .y.x."""
    name, at = n.text
    if name in FIELDS:
        i = FIELDS.index(name)
        for new in FIELDS[max(i - 1, 0) : i] + FIELDS[i + 1 : i + 2]:
            yield "operand", [(at, at + 1, new)]
        inner = n.kids[0]
        if inner.kind == "field" and inner.text[0] in FIELDS:
            yield "column", [(inner.text[1], inner.text[1] + 1, name), (at, at + 1, inner.text[0])]


def of_list(text, kids):
    """Two neighbours exchanged; a Column and a Row with their numbers exchanged."""
    for a, b in zip(kids, kids[1:]):
        if a.kind == "short" and b.kind == "short":
            yield "operand", [(a.start, a.end, f"{a.text}: {b.text}"), (b.start, b.end, f"{b.text}: {a.text}")]
            continue
        if "short" in (a.kind, b.kind):
            continue
        yield "operand", exchange(text, a, b)
        heads = {text[k.kids[0].start : k.kids[0].end] for k in (a, b) if k.kind == "call"}
        if heads == {"Column", "Row"}:
            yield "column", exchange(text, a.kids[1], b.kids[1])


def apply(text, edits):
    """The text with the edits made."""
    for start, end, new in sorted(edits, reverse=True):
        text = text[:start] + new + text[end:]
    return text


def short(text):
    """A text on one line, cut."""
    line = " ".join(text.split())
    return line if len(line) <= 60 else line[:57] + "..."


def mutants(crate):
    """Every mutant of a crate, in the order of its sources."""
    files = {os.path.basename(p): open(p, encoding="utf-8").read() for p in sorted(glob.glob(f"crates/{crate}/src/*.rt"))}
    bodies = {(f, p.function): t[p.start : p.stop] for f, t in files.items() for p in places(crate, f, t)}
    out = []
    for file, text in files.items():
        for place in places(crate, file, text):
            constant = place.function.split("::")[-1].isupper()
            parser = Parser(text, place.start, place.stop)
            tree = parser.expression() if constant else parser.block()
            touches = {(file, place.function)}
            if constant:
                named = re.compile(r"\b%s\b" % re.escape(place.function))
                touches |= {key for key, body in bodies.items() if named.search(body)}
            out += of_place(text, place, tree, touches)
    return out


def of_place(text, place, tree, touches):
    """The mutants of one body, each text once."""
    seen, count = {text}, collections.Counter()
    for kind, edits in changes(text, tree):
        changed = apply(text, edits)
        if changed in seen:
            continue
        seen.add(changed)
        first, last = min(e[0] for e in edits), max(e[1] for e in edits)
        line = text.count("\n", place.start, first) + 1
        column = first - text.rfind("\n", 0, first)
        at = f"{kind} {line}:{column}"
        name = f"{place.crate}/{place.file} {place.function} {at}.{count[at]}"
        count[at] += 1
        new = apply(text[:last], edits)[first:]
        yield Mutant(name, place.crate, place.file, kind, place.function, edits, touches, short(text[first:last]), short(new))


def drawn(seed, crate, all_mutants):
    """The crate's mutants in the order in which they are tried: each kind has its turn."""
    rng = random.Random(f"{seed} {crate}")
    of_kind = {k: [m for m in all_mutants if m.kind == k] for k in KINDS}
    for row in of_kind.values():
        rng.shuffle(row)
    order = []
    while any(of_kind.values()):
        for kind in rng.sample(KINDS, len(KINDS)):
            if of_kind[kind]:
                order.append(of_kind[kind].pop())
    return order


def shares(count, sizes):
    """How many of each crate: half in equal parts, half by the number of its mutants."""
    total = sum(sizes.values())
    return {c: min(n, round(count / 2 / len(sizes) + count / 2 * n / total)) for c, n in sizes.items()}


def copied(work):
    """A copy of the repository outside it."""
    top = os.path.join(work, "copy")
    if os.path.commonpath([os.path.realpath(work), os.path.realpath(".")]) == os.path.realpath("."):
        sys.exit("--work: a folder outside the repository")
    shutil.rmtree(top, ignore_errors=True)
    shutil.copytree("crates", os.path.join(top, "crates"), ignore=shutil.ignore_patterns("out"))
    shutil.copy("crates.txt", top)
    return top


def check(top, crate, batch):
    """What `rt check` says of the crate with the mutants of the batch; the copy is put back after it."""
    files = {m.file for m in batch}
    paths = {f: os.path.join(top, "crates", crate, "src", f) for f in files}
    before = {f: open(p, encoding="utf-8").read() for f, p in paths.items()}
    for f in files:
        edits = [e for m in batch if m.file == f for e in m.edits]
        open(paths[f], "w", encoding="utf-8").write(apply(before[f], edits))
    try:
        run = subprocess.run(["rt", "check"], cwd=os.path.join(top, "crates", crate), capture_output=True)
    finally:
        for f in files:
            open(paths[f], "w", encoding="utf-8").write(before[f])
    return (run.stdout + run.stderr).decode("utf-8", "replace")


def not_programs(log, top, crate, batch):
    """The mutants of the batch that the front end refuses, with what it says; None where the check reached the prover."""
    if re.search(r"^logic=", log, re.M):
        return None
    found = {}
    for file, line, said in re.findall(r"\bsrc/(\w+\.rt):(\d+):\d+: (error.*)", log):
        text = open(os.path.join(top, "crates", crate, "src", file), encoding="utf-8").read()
        for m in batch:
            if m.file == file and covers(text, batch, m, int(line)):
                found[m.name] = short(said)
    if not found:
        sys.exit(f"{crate}: the check ended without a verdict:\n{log[-2000:]}")
    return found


def covers(text, batch, m, line):
    """Whether a line of the changed file lies in the body of the mutant's function."""
    edits = [e for other in batch if other.file == m.file for e in other.edits]
    shift = lambda at: sum(new.count("\n") - text.count("\n", s, e) for s, e, new in edits if e <= at)
    for place in places(m.crate, m.file, text):
        if place.function == m.function:
            first = text.count("\n", 0, place.start) + 1 + shift(place.start)
            last = text.count("\n", 0, place.stop) + 1 + shift(place.stop)
            return first <= line <= last
    return False


def said(log):
    """The path of a proof and the whole text of each error that is not of an earlier error's making."""
    errors = re.findall(r"^(\S+/(?:Answers|Invariants|Proof)\.antt):\d+:\d+: error: (.*(?:\n  .*)*)", log, re.M)
    return [(path, " ".join(e.split())) for path, e in errors if "was not admitted" not in e]


def judge(log, m):
    """The verdict on a mutant that reached the prover, and what was said."""
    lines, errors, proved, own = log.split("\n"), said(log), [], []
    for file, function in m.touches:
        record, _, name = function.rpartition("::")
        module = "" if file == "lib.rt" else file[:-3] + "::"
        called = rf"(?:\w+::)*{record}::{name}" if record else rf"{module}{name}"
        folder = f"/{record or file[:-3]}/{name}" if record or module else f"/proofs/{name}"
        line = next((l for l in lines if re.match(rf"fn {m.crate}::{called}: ", l)), None)
        if line is None:
            continue
        proved.append(line.endswith(": proved"))
        unclosed = re.search(r"`search` did not prove .*", line)
        own += [unclosed.group()] if unclosed else []
        own += [e for path, e in errors if os.path.dirname(path).endswith(folder)]
        if re.search(r"not proved|no proof", line) and not own and "it calls" not in line:
            own.append(line.split(": ", 1)[1])
    if not proved:
        return "unclear", "the check names no function of it"
    facts = [l for l in own if not any(re.search(s, l) for s in SHAPE)]
    if facts:
        return "fact", facts[0][:200]
    if own:
        return "shape", own[0][:200]
    return "accepted", "proved" if all(proved) else "but for what it calls"


def next_batch(queue):
    """The first of the queue, and those after it that touch other functions."""
    batch, used = [], set()
    for m in queue:
        if not used & m.touches:
            batch.append(m)
            used |= m.touches
    return batch


class Run:
    """A run over some crates: its copy, its results, and what it still has to try."""

    def __init__(self, options):
        """Takes up the results that are there."""
        self.options = options
        self.work = options.work or tempfile.mkdtemp()
        os.makedirs(self.work, exist_ok=True)
        self.top = copied(self.work)
        self.path = options.resume or os.path.join(self.work, "mutants.jsonl")
        self.results, self.checks = {}, len(glob.glob(os.path.join(self.work, "*.log")))
        if os.path.exists(self.path):
            for line in open(self.path, encoding="utf-8"):
                row = json.loads(line)
                self.results[row["name"]] = row

    def note(self, m, verdict, why, seconds):
        """Writes a verdict at once."""
        row = {"name": m.name, "crate": m.crate, "kind": m.kind, "verdict": verdict, "old": m.old, "new": m.new, "why": why, "log": f"{m.crate}-{self.checks}.log", "seconds": round(seconds)}
        self.results[m.name] = row
        with open(self.path, "a", encoding="utf-8") as f:
            f.write(json.dumps(row, ensure_ascii=False) + "\n")
        print(f"{verdict}: {m.name}: {m.old} -> {m.new}", flush=True)

    def wanted(self, order, share):
        """The first of the order that may count towards the share and have no verdict yet."""
        chosen = []
        for m in order:
            if len(chosen) == share:
                break
            if self.results.get(m.name, {}).get("verdict") != "no program":
                chosen.append(m)
        return [m for m in chosen if m.name not in self.results]

    def crate(self, crate, order, share):
        """Tries the crate's share, batch after batch."""
        survivors = []
        while queue := self.wanted([m for m in order if m not in survivors], share - len(survivors)):
            survivors += self.batch(crate, next_batch(queue))
        if survivors:
            self.batch(crate, next_batch(survivors), last=True)
            for m in survivors:
                if m.name not in self.results:
                    self.batch(crate, [m], last=True)

    def batch(self, crate, batch, last=False):
        """Checks a batch, without those that are no programs; answers those to try once more."""
        began = time.time()
        log = check(self.top, crate, batch)
        refused = not_programs(log, self.top, crate, batch)
        if refused is not None:
            for m in batch:
                if m.name in refused:
                    self.note(m, "no program", refused[m.name], time.time() - began)
            rest = [m for m in batch if m.name not in refused]
            return self.batch(crate, rest, last) if rest else []
        self.checks += 1
        with open(os.path.join(self.work, f"{crate}-{self.checks}.log"), "w", encoding="utf-8") as f:
            f.write(log)
        again = []
        for m in batch:
            verdict, why = judge(log, m)
            if verdict == "accepted" and not last:
                again.append(m)
            else:
                self.note(m, verdict, why, time.time() - began)
        return again


def table(rows, key, order):
    """Lines of counts by crate or kind."""
    verdicts = ["fact", "shape", "accepted", "unclear", "no program"]
    yield f"{key:10} " + " ".join(f"{v:>10}" for v in verdicts)
    for name in order + ["all"]:
        these = [r for r in rows if name in ("all", r[key])]
        yield f"{name:10} " + " ".join(f"{sum(r['verdict'] == v for r in these):10}" for v in verdicts)


def report(rows, crates):
    """Prints the counts and the survivors; answers how many of these are not equal programs."""
    for key, order in [("crate", crates), ("kind", KINDS)]:
        print("\n".join(table(rows, key, order)), end="\n\n")
    bad = 0
    for row in rows:
        if row["verdict"] in ("accepted", "unclear"):
            reason = next((r for start, r in EQUAL.items() if row["name"].startswith(start)), None)
            bad += reason is None
            print(f"{'equal' if reason else 'SURVIVOR'}: {row['name']}: {row['old']} -> {row['new']}: {reason or row['why']}")
    tried = sum(r["verdict"] != "no program" for r in rows)
    print(f"{tried} mutants tried, {bad} survivors that are no equal programs")
    return bad


def main():
    """Draws, tries and reports."""
    parser = argparse.ArgumentParser(description=__doc__, formatter_class=argparse.RawDescriptionHelpFormatter)
    parser.add_argument("--seed", default="1")
    parser.add_argument("--count", type=int, default=150)
    parser.add_argument("--work")
    parser.add_argument("--resume")
    parser.add_argument("--list", action="store_true")
    parser.add_argument("--only", action="append", default=[])
    parser.add_argument("crates", nargs="*")
    options = parser.parse_args()
    crates = options.crates or CRATES
    all_mutants = {c: mutants(c) for c in crates}
    if options.list:
        for c in crates:
            for m in all_mutants[c]:
                print(f"{m.name}: {m.old} -> {m.new}")
        return
    share = shares(options.count, {c: len(all_mutants[c]) for c in crates})
    run = Run(options)
    for crate in crates:
        order = drawn(options.seed, crate, all_mutants[crate])
        if options.only:
            order = [m for m in order if any(name in m.name for name in options.only)]
        run.crate(crate, order, len(order) if options.only else share[crate])
    sys.exit(1 if report(list(run.results.values()), crates) else 0)


if __name__ == "__main__":
    main()
