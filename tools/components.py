#!/usr/bin/env python3
"""A second reading of component records, apart from the crate's own code: struct for bytes, fractions for values.

Usage: tools/components.py made [--seed N] [--count N] LIBRARY.a
           has the library read records that are made here, well-formed and damaged, and compares every answer, and
           every word of the outputs and beside them, with what is worked out here
       tools/components.py slips [--seed N] [--count N]
           fails unless the made records notice each of a list of wrong readings; it needs no library
       tools/components.py fonts LIBRARY.a PATH..
           has the library read every component record of TrueType fonts, files or whole folders, and compares it with
           what is worked out here, and with fontTools where that can be imported

The library is an archive such as target/staticlib/libmigthumo.a, linked by cc with tools/components.c, which makes the
calls: each slice stands directly before or after a page that can't be read. `made` fails where there is a difference,
and where a kind of call was not met; `fonts` where there is a difference, and where there was no record.
"""
import logging
import math
import os
import random
import struct
import subprocess
import sys
import tempfile
import time
from collections import Counter
from fractions import Fraction
from functools import cache
from itertools import chain, combinations, islice
from typing import NamedTuple

try:
    from fontTools.ttLib import TTFont
    from fontTools.ttLib.tables import _g_l_y_f as third_flags
    logging.getLogger("fontTools").setLevel(logging.ERROR)
except ImportError:
    TTFont = None

WORDS, VALUES, MORE = 0x0001, 0x0002, 0x0020
SCALES = {0x0008: 1, 0x0040: 2, 0x0080: 4}  # a scale flag, and how many numbers come with it
FORMS = {0: "no scale", 0x0008: "one scale", 0x0040: "two scales", 0x0080: "four numbers"}
LONGEST = 16  # bytes of the longest record
TOP = (1 << 64) - 1  # the largest number of 64 bits

# Where xscale, scale01, scale10 and yscale come from, by form: places in the list of the numbers read, then 0 and 1.
NIL, ONE = -2, -1
SPREAD = {0: (ONE, NIL, NIL, ONE), 0x0008: (0, NIL, NIL, 0), 0x0040: (0, NIL, NIL, 1), 0x0080: (0, 1, 2, 3)}

# The faults that a call can have, in the order in which they are answered, and the number of each.
ORDER = ("room", "flags", "doubled", "points", "rest")
NUMBER = {"room": 4, "flags": 20, "doubled": 21, "points": 22, "rest": 20}
TOLD = {"room": "4 (lengths)", "flags": "20 (flags word)", "doubled": "21", "points": "22", "rest": "20 (rest)"}

# The words that go to tools/components.c and come back, and where in them the outputs are: two words before each, and
# two or more after it, are not an output's own. Standing: see there.
ROOM = 22
HEAD, M = slice(16, 40), slice(80, 152)
BESIDE = (slice(0, 16), slice(40, 80), slice(152, 176))
BEFORE_PAGE, AFTER_PAGE, NULLS = 0, 1, 2
FLAWS = {1: "touches memory beyond the slice", 2: "changes the bytes", 3: "changes the bytes and memory beyond them"}


class Case(NamedTuple):
    """A call: the slice, the place, the outputs' lengths; how the slice stands; the words in and beside the outputs."""

    data: bytes
    at: int
    standing: int
    words: bytes
    head_length: int = 3
    m_length: int = 9


class Answer(NamedTuple):
    """What is to be answered: a number, and where it is 0 the head and the entries, which are fractions."""

    number: int
    head: tuple = ()
    entries: tuple = ()


# ---- the second reading


@cache
def layout(offsets, count):
    """The record with such offsets and so many scale numbers after them."""
    return struct.Struct(">HH" + offsets + "h" * count)


@cache
def fraction(number, unit):
    """One number over another: scales are over 16384, offsets over 1."""
    return Fraction(number, unit)


class Reading:
    """The rules: the faults of a call, of which the first in order is answered; and the record of a call without."""

    order, unit = ORDER, 16384
    widths = {False: "bb", True: "hh"}
    spread = SPREAD

    def flags(self, case):
        """The flags word, or None where the bytes end before it does."""
        word = case.data[case.at:case.at + 2]
        return struct.unpack(">H", word)[0] if len(word) == 2 else None

    def forms(self, flags):
        """The scale flags that are set."""
        return [flag for flag in SCALES if flags & flag]

    def layouts(self, flags):
        """The record's layout, by each of the scale flags that are set."""
        offsets = self.widths[bool(flags & WORDS)]
        return [layout(offsets, count) for count in [SCALES[flag] for flag in self.forms(flags)] or [0]]

    def left(self, case):
        """How many bytes there are from the place on, as far as a record may go."""
        return len(case.data[case.at:case.at + LONGEST])

    def faults(self, case):
        """Every fault that the call has. The rest is short where it is so by each of the scale flags that are set."""
        flags = self.flags(case)
        found = set() if (case.head_length, case.m_length) == (3, 9) else {"room"}
        if flags is None:
            return found | {"flags"}
        if len(self.forms(flags)) > 1:
            found.add("doubled")
        if not flags & VALUES:
            found.add("points")
        if self.left(case) < min(one.size for one in self.layouts(flags)):
            found.add("rest")
        return found

    def record(self, case):
        """The record of a call without a fault, or with point numbers for offsets."""
        one = self.layouts(self.flags(case))[0]
        flags, index, dx, dy, *scales = one.unpack(case.data[case.at:case.at + one.size])
        values = [fraction(scale, self.unit) for scale in scales] + [fraction(0, 1), fraction(1, 1)]
        a, b, c, d = (values[place] for place in self.spread[(self.forms(flags) or [0])[0]])
        columns = (a, b, values[NIL], c, d, values[NIL], fraction(dx, 1), fraction(dy, 1), values[ONE])
        return Answer(0, (flags, index, case.at + one.size), columns)

    def read(self, case):
        """What is to be answered to a call."""
        found = self.faults(case)
        for fault in self.order:
            if fault in found:
                return Answer(NUMBER[fault])
        return self.record(case)

    def outcome(self, case):
        """What a library that reads so does: the answer, and the words in and beside the outputs."""
        want, words = self.read(case), case.words
        if want.number == 0:
            head, m = struct.pack("=3Q", *want.head), struct.pack("=9d", *map(float, want.entries))
            words = words[:HEAD.start] + head + words[HEAD.stop:M.start] + m + words[M.stop:]
        return want.number, words


RIGHT = Reading()


# ---- what was answered, compared


@cache
def pattern(value):
    """The 64 bits of a fraction that is a double; zero is +0.0."""
    assert Fraction(float(value)) == value
    return struct.unpack("=Q", struct.pack("=d", float(value)))[0]


def exact(word, value):
    """Whether 64 bits are the double that has that value, bit for bit, and so not -0.0."""
    number, = struct.unpack("=d", struct.pack("=Q", word))
    return math.isfinite(number) and Fraction(number) == value and word == pattern(value)


def difference(case, want, answer, words):
    """How an outcome differs from what is to be answered, or None."""
    if answer >> 32:
        return FLAWS[answer >> 32]
    if answer != want.number:
        return f"answers {answer}, not {want.number}"
    if answer != 0:
        return None if words == case.words else f"answers {answer} and changes an output, or a word beside it"
    if any(words[part] != case.words[part] for part in BESIDE):
        return "changes a word beside an output"
    head = struct.unpack("=3Q", words[HEAD])
    if head != want.head:
        return f"gives the head {head}, not {want.head}"
    for place, (word, value) in enumerate(zip(struct.unpack("=9Q", words[M]), want.entries)):
        if not exact(word, value):
            return f"gives entry {place} the bits {word:016x}, not those of {value}"
    return None


class Tally:
    """Differences, of which the first few are printed."""

    def __init__(self):
        self.count, self.where = 0, ""

    def note(self, case, what):
        """Counts a difference, where there is one."""
        if what is None:
            return
        self.count += 1
        if self.count <= 10:
            near = case.data[case.at:case.at + LONGEST].hex() or "nothing"
            print(f"DIFFERENT: {self.where}at {case.at} of {len(case.data)} bytes, where {near} stands, with lengths "
                  f"{case.head_length} and {case.m_length}: {what}")


class Library:
    """The archive, linked with tools/components.c into a program that is handed batches of calls."""

    BATCH = 10000

    def __init__(self, archive, folder):
        here = os.path.dirname(os.path.abspath(__file__))
        program = os.path.join(folder, "components")
        command = ["cc", "-O1", "-Wall", "-Wextra", "-std=c11", "-I" + os.path.join(here, "..", "include"),
                   os.path.join(here, "components.c"), archive, "-o", program]
        if subprocess.run(command).returncode != 0:
            sys.exit(f"FAILED: {archive} can't be linked with tools/components.c")
        self.program = subprocess.Popen([program], stdin=subprocess.PIPE, stdout=subprocess.PIPE)

    def batch(self, cases):
        """What came of each call of a batch: the answer, and the words in and beside the outputs."""
        heads = [struct.pack("=5Q", len(c.data), c.at, c.head_length, c.m_length, c.standing) for c in cases]
        sent = b"".join(head + case.words + case.data for head, case in zip(heads, cases))
        one = struct.Struct(f"=Q{8 * ROOM}s")
        try:
            self.program.stdin.write(struct.pack("=2Q", len(cases), len(sent)) + sent)
            self.program.stdin.flush()
            back = self.program.stdout.read(one.size * len(cases))
        except BrokenPipeError:
            back = b""
        if len(back) != one.size * len(cases):
            sys.exit(f"FAILED: the program that makes the calls ended with the status {self.program.wait()}")
        return list(one.iter_unpack(back))

    def call(self, cases):
        """Each call with what came of it."""
        cases = iter(cases)
        while some := list(islice(cases, self.BATCH)):
            yield from zip(some, self.batch(some))

    def close(self):
        """Ends the program."""
        self.program.stdin.close()
        self.program.wait()


# ---- records that are made


def fillings(rng, count=97):
    """What the outputs hold beforehand: NaNs quiet and signalling with payloads, -0.0, infinities, any other words."""
    def word():
        sign, payload = rng.getrandbits(1) << 63, rng.getrandbits(51) | 1
        return rng.choice([rng.getrandbits(64), sign | 0x7FF8 << 48 | payload, sign | 0x7FF0 << 48 | payload])

    made = [[word() for _ in range(ROOM)] for _ in range(count)]
    for each in (0x8000000000000000, 0x7FF0000000000000, 0xFFFFFFFFFFFFFFFF, 0x7FF0000000000001, 1):
        made.append([each] * ROOM)
    return [struct.pack(f"={ROOM}Q", *words) for words in made]


class Maker:
    """Makes calls by a seed: a recipe after the other, in turns."""

    EXTREME_WORDS = (-32768, 32767, -1, 0, 1, 127, 128, -128, -129, 255, 256, -256)
    EXTREME_BYTES = (-128, 127, -1, 0, 1)
    EXTREME_SCALES = (-32768, 32767, 16384, -16384, 0, 1, -1, 8192, 16383, 16385, 255, 256)
    EXTREME_INDICES = (0, 1, 255, 256, 32767, 32768, 65535)
    FREE = 0xFFFF ^ (WORDS | VALUES | sum(SCALES))  # the flags that a well-formed record may have or not

    def __init__(self, seed):
        self.rng = random.Random(seed)
        self.fillings = fillings(self.rng)
        self.recipes = [self.well] * 8 + [self.cut] * 3 + [self.faulty] * 2 + [
            self.doubled, self.points, self.changed, self.flipped, self.empty, self.past, self.huge]

    def number(self, extreme, low, high):
        """A number in a range, extreme at every third or so."""
        return self.rng.choice(extreme) if self.rng.random() < 0.35 else self.rng.randint(low, high)

    def flags(self, scales, words, values=VALUES):
        """A flags word with such scale flags, and the others, reserved ones too, by chance."""
        others = self.rng.choice((0, MORE, self.FREE, self.rng.getrandbits(16), self.rng.getrandbits(16)))
        return others & self.FREE | scales | (WORDS if words else 0) | values

    def record(self, flags, scales):
        """A record with such flags and so many numbers after the offsets."""
        width, extreme = ("hh", self.EXTREME_WORDS) if flags & WORDS else ("bb", self.EXTREME_BYTES)
        offsets = [self.number(extreme, min(extreme), max(extreme)) for _ in range(2)]
        numbers = [self.number(self.EXTREME_SCALES, -32768, 32767) for _ in range(scales)]
        return layout(width, scales).pack(flags, self.number(self.EXTREME_INDICES, 0, 65535), *offsets, *numbers)

    def any_record(self):
        """A well-formed record of any form."""
        form = self.rng.choice(list(FORMS))
        return self.record(self.flags(form, self.rng.getrandbits(1)), SCALES.get(form, 0))

    def noise(self, most=24):
        """Some bytes, often none."""
        return self.rng.randbytes(max(0, self.rng.randint(-most // 2, most)))

    def stand(self, record, after=b"", at=None):
        """The call with bytes before the record and after it; the place is the record's, or another one."""
        before = self.noise()
        standing = self.rng.choice((BEFORE_PAGE, BEFORE_PAGE, AFTER_PAGE)) | self.rng.choice((0, NULLS))
        data = before + record + after
        return Case(data, len(before) if at is None else at(data), standing, self.rng.choice(self.fillings))

    def well(self):
        """A well-formed record, with or without bytes after it."""
        return self.stand(self.any_record(), self.noise())

    def cut(self):
        """A well-formed record of which the last bytes are missing, from one to all."""
        record = self.any_record()
        return self.stand(record[:self.rng.randrange(len(record))])

    def doubled(self):
        """Two or three scale flags, and bytes enough for any form."""
        several = sum(self.rng.sample(list(SCALES), self.rng.choice((2, 2, 3))))
        return self.stand(self.record(self.flags(several, self.rng.getrandbits(1)), 4), self.noise())

    def points(self):
        """Point numbers for offsets."""
        form = self.rng.choice(list(FORMS))
        return self.stand(self.record(self.flags(form, self.rng.getrandbits(1), 0), SCALES.get(form, 0)), self.noise())

    def changed(self):
        """A record with any flags word instead of its own."""
        return self.stand(self.rng.randbytes(2) + self.any_record()[2:], self.noise())

    def flipped(self):
        """A record with one bit turned."""
        record = bytearray(self.any_record())
        record[self.rng.randrange(len(record))] ^= 1 << self.rng.randrange(8)
        return self.stand(bytes(record), self.noise())

    def faulty(self):
        """At least two of: several scale flags, point numbers, a rest that is short by each scale flag that is set."""
        faults = self.rng.choice(((1, 1, 0), (1, 0, 1), (0, 1, 1), (1, 1, 1)))
        forms = self.rng.sample(list(SCALES), self.rng.choice((2, 3))) if faults[0] else [self.rng.choice(list(FORMS))]
        record = self.record(self.flags(sum(forms), self.rng.getrandbits(1), 0 if faults[1] else VALUES), 4)
        least = min(one.size for one in RIGHT.layouts(struct.unpack(">H", record[:2])[0]))
        return self.stand(record[:self.rng.randrange(2, least)]) if faults[2] else self.stand(record, self.noise())

    def empty(self):
        """No bytes, at any place."""
        at = self.rng.choice((0, 0, 1, 2, 10, 1 << 63, (1 << 64) - 1, (1 << 64) - 2))
        return self.stand(b"")._replace(data=b"", at=at)

    def past(self):
        """A place at the end, one before it, or after it."""
        beyond = self.rng.choice((-1, 0, 0, 1, 2, 3, 16, 4096))
        return self.stand(self.any_record(), self.noise(), lambda data: len(data) + beyond)

    def huge(self):
        """A place so large that a number of 64 bits can't hold the place after it, or nearly so large."""
        top = self.rng.choice((1 << 64, 1 << 64, 1 << 64, 1 << 63, 1 << 32))
        less = self.rng.choice((1, 2, 3, 4, 6, 8, 16, 0))
        case = self.stand(self.any_record(), self.noise(), lambda data: top - (less or len(data)))
        return case if self.rng.random() < 0.8 else case._replace(at=top // 2 + self.rng.choice((0, 1, case.at % 64)))

    def wrong_room(self):
        """A call of another recipe with wrong lengths of head, of m or of both."""
        case = self.rng.choice(self.recipes)()
        heads, ms = (0, 1, 2, 4), (0, 8, 10)
        wrong = self.rng.choice(((heads, (9,)), ((3,), ms), (heads, ms)))
        return case._replace(head_length=self.rng.choice(wrong[0]), m_length=self.rng.choice(wrong[1]))

    def cases(self, count):
        """So many calls."""
        turns = self.recipes + [self.wrong_room] * 2
        for i in range(count):
            yield turns[i % len(turns)]()


# ---- kinds of calls, each of which has to be met


def shape(flags):
    """A record's form and the width of its offsets."""
    return f"{FORMS[flags & sum(SCALES)]}, {'words' if flags & WORDS else 'bytes'}"


def closer(case, fault):
    """Which one it is of a kind that has several, for a call with one fault."""
    if fault == "room":
        return ", m" if case.head_length == 3 else ", head" if case.m_length == 9 else ", head and m"
    if fault == "rest":
        return ", " + shape(RIGHT.flags(case))
    if fault == "flags":
        past = case.at - len(case.data)
        return (", place of 2^63 or more" if case.at >= 1 << 63 else ", empty slice" if not case.data else
                ", one byte of two" if past == -1 else ", place at the end" if past == 0 else ", place past the end")
    return ""


def refused(faults):
    """Faults in the order in which they are answered."""
    return "refused: " + " with ".join(TOLD[fault] for fault in ORDER if fault in faults)


def kind(case):
    """The kind of a call: its form, or all its faults in order, the first being what is answered."""
    found = RIGHT.faults(case)
    if not found:
        return "given: " + shape(RIGHT.flags(case))
    return refused(found) + (closer(case, *found) if len(found) == 1 else "")


def kinds():
    """All kinds: there are several scale flags, point numbers or a rest only where there is a flags word."""
    shapes = [shape(form | width) for form in FORMS for width in (0, WORDS)]
    parts = {"room": ["head", "m", "head and m"], "rest": shapes, "flags": [
        "empty slice", "one byte of two", "place at the end", "place past the end", "place of 2^63 or more"]}
    lone = [refused([fault]) + part for fault in ORDER for part in [", " + one for one in parts.get(fault, [])] or [""]]
    later = list(chain.from_iterable(combinations(ORDER[2:], n) for n in range(1, 4)))
    meeting = [some for some in later if len(some) > 1] + [("room", *some) for some in [("flags",)] + later]
    return ["given: " + one for one in shapes] + lone + [refused(some) for some in meeting]


def standing(case):
    """How a slice stands."""
    if case.standing & NULLS and not case.data:
        return "slices that are null"
    return f"slices directly {'after' if case.standing & AFTER_PAGE else 'before'} a page that can't be read"


class Seen:
    """What was met among the made calls."""

    LEFT = [(form | width, left) for form in FORMS for width in (0, WORDS)
            for left in range(2, layout(Reading.widths[bool(width)], SCALES.get(form, 0)).size)]
    LEAST, MOST = [Fraction(-2)] * 4 + [Fraction(-32768)] * 2, [Fraction(32767, 16384)] * 4 + [Fraction(32767)] * 2

    def __init__(self):
        self.kinds, self.standing, self.left = Counter(), Counter(), Counter()
        self.low, self.high = [Fraction(0)] * 6, [Fraction(0)] * 6

    def add(self, case, want):
        """Takes note of a call, and of what is to be answered."""
        named = kind(case)
        self.kinds[named] += 1
        self.standing[standing(case)] += 1
        if named.startswith(refused(["rest"])):
            self.left[RIGHT.flags(case) & (sum(SCALES) | WORDS), RIGHT.left(case)] += 1
        if want.number == 0:
            numbers = [want.entries[place] for place in (0, 1, 3, 4, 6, 7)]
            self.low = list(map(min, self.low, numbers))
            self.high = list(map(max, self.high, numbers))

    def tell(self):
        """Prints how often each kind was met; the answer is how many were not."""
        missing = 0
        for name in kinds() + [name for name in self.kinds if name not in kinds()]:
            print(f"{name}: {self.kinds[name]}")
            missing += self.kinds[name] == 0 or name not in kinds()
        for name in sorted(self.standing):
            print(f"{name}: {self.standing[name]}")
        fewest = min(self.left[one] for one in self.LEFT)
        print(f"cut in the rest at each of {len(self.LEFT)} lengths, the fewest: {fewest}")
        spans = "; ".join(f"{float(low)} to {float(high)}" for low, high in zip(self.low, self.high))
        print(f"xscale, scale01, scale10, yscale, dx, dy from: {spans}")
        return missing + (len(self.standing) < 3) + (fewest == 0) + ((self.low, self.high) != (self.LEAST, self.MOST))


def made(archive, seed, count):
    """The library's answers on made records."""
    tally, seen, damaged, began = Tally(), Seen(), 0, time.monotonic()
    with tempfile.TemporaryDirectory() as folder:
        library = Library(archive, folder)
        for case, (answer, words) in library.call(Maker(seed).cases(count)):
            want = RIGHT.read(case)
            seen.add(case, want)
            damaged += want.number != 0
            tally.note(case, difference(case, want, answer, words))
        library.close()
    missing = seen.tell()
    print(f"seed {seed}, {time.monotonic() - began:.0f} s; kinds not met: {missing}")
    print(f"{sum(seen.kinds.values())} records, of which {damaged} damaged or with wrong lengths: "
          f"{tally.count} differences")
    return tally.count == 0 and missing == 0


# ---- wrong readings, which the made records have to notice


def slip(**changed):
    """The rules with something changed."""
    return type("Slip", (Reading,), changed)()


def other_head(change):
    """A reading that gives another head."""
    def record(self, case):
        right = Reading.record(self, case)
        return right._replace(head=change(case, *right.head))
    return slip(record=record)


def other_words(change):
    """A reading whose outputs are changed after the call: the words in and beside them, given the answer's number."""
    def outcome(self, case):
        number, words = Reading.outcome(self, case)
        return number, change(case, number, words)
    return slip(outcome=outcome)


def fault_less(fault, unless):
    """A reading that leaves out a fault, but for some calls."""
    return slip(faults=lambda self, case: Reading.faults(self, case) - (set() if unless(case) else {fault}))


def empty_at_end(self, case):
    """A place at the end read as an empty record, which moves nothing."""
    found = Reading.faults(self, case)
    if found == {"flags"} and case.at == len(case.data):
        return Answer(0, (0, 0, case.at), tuple(map(Fraction, (1, 0, 0, 0, 1, 0, 0, 0, 1))))
    return Reading.read(self, case)


def whole_slice(self, case):
    """The faults where bytes after a record are taken for one."""
    found = Reading.faults(self, case)
    return found | ({"rest"} if not found and Reading.record(self, case).head[2] != len(case.data) else set())


def negative_zeros(case, number, words):
    """Every zero of m as -0.0."""
    entries = [-0.0 if entry == 0 else entry for entry in struct.unpack("=9d", words[M])]
    return words if number else words[:M.start] + struct.pack("=9d", *entries) + words[M.stop:]


def early_head(case, number, words):
    """A refusal after the flags went out."""
    if number not in (21, 22):
        return words
    return words[:HEAD.start] + struct.pack("=Q", RIGHT.flags(case)) + words[HEAD.start + 8:]


def cleared(case, number, words):
    """A refusal that sets m to zeros."""
    return words[:M.start] + bytes(72) + words[M.stop:] if number else words


def word_after(case, number, words):
    """A tenth entry, written beside m."""
    return words if number else words[:M.stop] + struct.pack("=d", 1.0) + words[M.stop + 8:]


def quieted(case, number, words):
    """A refusal that loads and stores m's first number, by which a signalling NaN becomes quiet."""
    word, = struct.unpack("=Q", words[M.start:M.start + 8])
    quiet = word | 1 << 51 if word >> 52 & 0x7FF == 0x7FF and word & (1 << 52) - 1 else word
    return words[:M.start] + struct.pack("=Q", quiet) + words[M.start + 8:] if number else words


SLIPS = {
    "scale01 and scale10 exchanged": slip(spread={**SPREAD, 0x0080: (0, 2, 1, 3)}),
    "an unsigned offset": slip(widths={False: "BB", True: "HH"}),
    "22 tested before 21": slip(order=("room", "flags", "points", "doubled", "rest")),
    "F2Dot14 over 16383": slip(unit=16383),
    "the place after short by two": other_head(lambda case, flags, index, end: (flags, index, end - 2)),
    "index and flags exchanged": other_head(lambda case, flags, index, end: (index, flags, end)),
    "one scale used for xscale only": slip(spread={**SPREAD, 0x0008: (0, NIL, NIL, ONE)}),
    "the 20 for the rest given before 21": slip(order=("room", "flags", "rest", "doubled", "points")),
    "a place at the end taken as an empty record": slip(read=empty_at_end),
    "bytes and words exchanged": slip(widths={False: "hh", True: "bb"}),
    "the 20 for the rest given before 22": slip(order=("room", "flags", "doubled", "rest", "points")),
    "an unsigned offset, words only": slip(widths={False: "bb", True: "HH"}),
    "an unsigned offset, bytes only": slip(widths={False: "BB", True: "hh"}),
    "an unsigned dy": slip(widths={False: "bB", True: "hH"}),
    "two scales exchanged": slip(spread={**SPREAD, 0x0040: (1, NIL, NIL, 0)}),
    "two scales as xscale and scale01": slip(spread={**SPREAD, 0x0040: (0, 1, NIL, NIL)}),
    "no scale as zeros": slip(spread={**SPREAD, 0: (NIL, NIL, NIL, NIL)}),
    "the place after told from the record": other_head(lambda case, flags, index, end: (flags, index, end - case.at)),
    "reserved flags dropped": other_head(lambda case, flags, index, end: (flags & 0x1FEF, index, end)),
    "a signed index": other_head(lambda case, flags, index, end: (flags, (index ^ 1 << 15) - (1 << 15) & TOP, end)),
    "bytes after a record refused": slip(faults=whole_slice),
    "several scale flags taken": fault_less("doubled", lambda case: False),
    "all three scale flags taken": fault_less("doubled", lambda case: sum(SCALES) & ~(RIGHT.flags(case) or 0)),
    "the lengths tested last": slip(order=("flags", "doubled", "points", "rest", "room")),
    "m's length not tested": fault_less("room", lambda case: case.head_length != 3),
    "the head's length not tested": fault_less("room", lambda case: case.m_length != 9),
    "zeros as -0.0": other_words(negative_zeros),
    "the flags written before a refusal": other_words(early_head),
    "m cleared on a refusal": other_words(cleared),
    "a NaN of m made quiet on a refusal": other_words(quieted),
    "a word after m written": other_words(word_after),
}


def slips(seed, count):
    """Each wrong reading against the right one, by what compares the library's answers."""
    cases = list(Maker(seed).cases(count))
    wants = [RIGHT.read(case) for case in cases]
    missed = sum(difference(case, want, *RIGHT.outcome(case)) is not None for case, want in zip(cases, wants))
    print(f"the right reading: {missed} of {count} records differ")
    for name, wrong in SLIPS.items():
        noticed = sum(difference(case, want, *wrong.outcome(case)) is not None for case, want in zip(cases, wants))
        print(f"{name}: {'noticed by' if noticed else 'NOT NOTICED by any of'} {noticed or count} records")
        missed += noticed == 0
    print(f"{len(SLIPS)} wrong readings on {count} records, seed {seed}: {missed} not noticed")
    return missed == 0


# ---- records of fonts


class Unread(Exception):
    """Why a font is not read."""


class Font:
    """A face of a font file: its tables, and each glyph's own slice of the glyf table."""

    def __init__(self, path, data, offset, number):
        self.path, self.data, self.number = path, data, number
        self.tables = self.directory(offset)
        if b"glyf" not in self.tables:
            raise Unread("its outlines are CFF" if {b"CFF ", b"CFF2"} & set(self.tables) else "it has no glyf table")
        self.glyphs = self.slices()

    def at(self, form, offset):
        """Numbers at an offset of the file."""
        try:
            return struct.unpack_from(">" + form, self.data, offset)
        except struct.error:
            raise Unread("the file is cut short")

    def directory(self, offset):
        """The tables by their tags: offset and length."""
        if self.data[offset:offset + 4] not in (b"\0\1\0\0", b"true", b"OTTO"):
            raise Unread("it is no font")
        entries = [self.at("4sLLL", offset + 12 + 16 * i) for i in range(*self.at("H", offset + 4))]
        return {tag: (start, length) for tag, _, start, length in entries}

    def table(self, tag):
        """A table's offset and length."""
        if tag not in self.tables:
            raise Unread(f"it has no {tag.decode()} table")
        return self.tables[tag]

    def slices(self):
        """Each glyph's slice; None where its offsets fall or pass the table."""
        long_offsets, = self.at("h", self.table(b"head")[0] + 50)
        count, = self.at("H", self.table(b"maxp")[0] + 4)
        place, length = self.table(b"loca")
        if length < (count + 1) * (4 if long_offsets else 2):
            raise Unread("its loca table is short")
        offsets = self.at(f"{count + 1}{'L' if long_offsets else 'H'}", place)
        offsets = offsets if long_offsets else [2 * offset for offset in offsets]
        start, length = self.table(b"glyf")
        glyf = self.data[start:start + length]
        return [glyf[a:b] if a <= b <= len(glyf) else None for a, b in zip(offsets, offsets[1:])]

    def composites(self):
        """The glyphs whose contour count is below zero, after which components follow a header of ten bytes."""
        whole = [glyph for glyph, one in enumerate(self.glyphs) if one is not None and len(one) >= 10]
        return [glyph for glyph in whole if struct.unpack_from(">h", self.glyphs[glyph])[0] < 0]

    def unreadable(self):
        """How many glyphs have no slice, or one of 1 to 9 bytes."""
        return sum(one is None or 0 < len(one) < 10 for one in self.glyphs)


def files(paths):
    """The files among the paths, and the font files in folders among them, by their names."""
    for path in paths:
        if os.path.isdir(path):
            found = (os.path.join(folder, name) for folder, _, names in os.walk(path) for name in names)
            yield from sorted(one for one in found if one.lower().endswith((".ttf", ".ttc", ".otf", ".otc")))
        else:
            yield path


def faces(path):
    """Each face of a file: the path, the bytes, where its table directory is, and its number; -1 where it is alone."""
    with open(path, "rb") as file:
        data = file.read()
    if data[:4] != b"ttcf":
        return [(path, data, 0, -1)]
    count = min(int.from_bytes(data[8:12], "big"), len(data) // 4)
    return [(path, data, int.from_bytes(data[12 + 4 * i:16 + 4 * i], "big"), i) for i in range(count)]


class Walk:
    """The component records of a font's composites, read by the library, and held to the second and third readings."""

    def __init__(self, library, font, fills, tally):
        self.library, self.font, self.fills, self.tally = library, font, fills, tally
        self.kinds, self.refused, self.read = Counter(), Counter(), {glyph: [] for glyph in font.composites()}
        self.unfinished, self.third = set(), 0
        self.walk()

    def walk(self):
        """Round after round, a record of each glyph that has one more."""
        begun = [(glyph, 10) for glyph in self.read]
        while begun:
            fills = [self.fills[(glyph + at) % len(self.fills)] for glyph, at in begun]
            cases = [Case(self.font.glyphs[glyph], at, BEFORE_PAGE, fill) for (glyph, at), fill in zip(begun, fills)]
            outcomes = self.library.call(cases)
            nexts = [(glyph, self.one(glyph, case, *out)) for (glyph, _), (case, out) in zip(begun, outcomes)]
            begun = [(glyph, at) for glyph, at in nexts if at is not None]

    def one(self, glyph, case, answer, words):
        """Compares a record; answers where the next one is, or None where there is none or it can't be known."""
        what = difference(case, RIGHT.read(case), answer, words)
        self.tally.note(case, what)
        self.kinds[kind(case)] += 1
        self.read[glyph].append((case, answer, words))
        if what is not None:
            self.unfinished.add(glyph)
            return None
        if answer == 0:
            flags, _, after = struct.unpack("=3Q", words[HEAD])
            return after if flags & MORE else None
        self.refused[answer] += 1
        if answer == 22 and "rest" not in RIGHT.faults(case):
            flags, _, after = RIGHT.record(case).head  # the library gives none here, and there may be more records
            return after if flags & MORE else None
        self.unfinished.add(glyph)
        return None

    def compare_third(self):
        """Holds the glyphs that were read to their ends to what fontTools reads; composites have the count -1 there."""
        theirs = TTFont(self.font.path, fontNumber=self.font.number, lazy=True)
        theirs.setGlyphOrder([str(glyph) for glyph in range(len(self.font.glyphs))])
        for glyph, records in self.read.items():
            if glyph in self.unfinished or self.font.glyphs[glyph][:2] != b"\xff\xff":
                continue
            components = theirs["glyf"][str(glyph)].components
            if len(components) != len(records):
                self.tally.note(records[0][0], f"fontTools reads {len(components)} components, not {len(records)}")
            for component, (case, answer, words) in zip(components, records):
                self.third += 1
                self.tally.note(case, third_difference(component, case, answer, words))


def third_difference(component, case, answer, words):
    """How fontTools' component differs from the library's answer, or None.

    Of the flags fontTools keeps these six alone, and works out the others when it writes; the width of the offsets is
    not kept. It has firstPt and secondPt for point numbers, and transform exactly where there is a scale flag.
    """
    kept = (third_flags.ROUND_XY_TO_GRID | third_flags.USE_MY_METRICS | third_flags.SCALED_COMPONENT_OFFSET
            | third_flags.UNSCALED_COMPONENT_OFFSET | third_flags.NON_OVERLAPPING | third_flags.OVERLAP_COMPOUND)
    if answer == 22:
        return None if hasattr(component, "firstPt") else "fontTools reads no point numbers"
    flags, index, _ = struct.unpack("=3Q", words[HEAD])
    m = struct.unpack("=9d", words[M])
    (a, b), (c, d) = getattr(component, "transform", ((1, 0), (0, 1)))
    theirs = component.flags, int(component.glyphName.removeprefix("glyph")), hasattr(component, "transform"), (
        a, b, 0, c, d, 0, component.x, component.y, 1)
    ours = flags & kept, index, bool(flags & sum(SCALES)), m
    return None if theirs == ours else f"fontTools reads {theirs}, not {ours}"


def refusals(counts):
    """How many records were refused with each number."""
    return "refused " + ", ".join(f"{counts[number]} with {number}" for number in (20, 21, 22))


def font_read(library, face, fills, tally, total, met):
    """One font: its line, and what it adds to the totals."""
    name = face[0] if face[3] < 0 else f"{face[0]}, face {face[3]}"
    try:
        font = Font(*face)
    except Unread as why:
        print(f"{name}: skipped, {why}")
        total["skipped"] += 1
        return
    tally.where = name + ", "
    walk = Walk(library, font, fills, tally)
    if TTFont is not None:
        try:
            walk.compare_third()
        except Exception as why:  # whatever fontTools has to say
            print(f"{name}: fontTools can't read it: {why!r}")
            total["third unread"] += 1
    found = {"fonts": 1, "glyphs": len(font.glyphs), "composites": len(walk.read), "records": sum(walk.kinds.values()),
             "third": walk.third, "unreadable": font.unreadable(), **walk.refused}
    total.update(found)
    met.update(walk.kinds)
    print(f"{name}: glyphs {found['glyphs']}, composites {found['composites']}, records {found['records']}, "
          f"{refusals(walk.refused)}" + (f", unreadable glyphs {found['unreadable']}" if found["unreadable"] else ""))


def fonts(archive, paths):
    """The library's answers on the records of fonts."""
    tally, total, met, began = Tally(), Counter(), Counter(), time.monotonic()
    fills = fillings(random.Random(1))
    with tempfile.TemporaryDirectory() as folder:
        library = Library(archive, folder)
        for face in chain.from_iterable(map(faces, files(paths))):
            font_read(library, face, fills, tally, total, met)
        library.close()
    for name in sorted(met):
        print(f"{name}: {met[name]}")
    print(f"glyphs {total['glyphs']}, unreadable {total['unreadable']}, records {total['records']}, {refusals(total)}; "
          f"{time.monotonic() - began:.0f} s")
    print("fontTools can't be imported: there was no third reading" if TTFont is None else
          f"records compared with fontTools too: {total['third']}; fonts that it can't read: {total['third unread']}")
    print(f"{total['fonts']} fonts ({total['skipped']} others skipped), {total['composites']} composites, "
          f"{total['records']} records: {tally.count} differences")
    return tally.count == 0 and total["records"] > 0 and (TTFont is None or total["third"] > 0)


# ---- the command line


def option(words, name, default):
    """An option's number, which is taken out of the words, or its default."""
    if name not in words:
        return default
    place = words.index(name)
    if not "".join(words[place + 1:place + 2]).isdigit():
        sys.exit(__doc__)
    number = int(words[place + 1])
    del words[place:place + 2]
    return number


def main(words):
    """Runs the mode that the words name; the answer is whether all was well."""
    mode, *words = words or [""]
    if mode == "made":
        seed, count = option(words, "--seed", 11), option(words, "--count", 200000)
        if len(words) == 1:
            return made(words[0], seed, count)
    if mode == "slips":
        seed, count = option(words, "--seed", 11), option(words, "--count", 10000)
        if not words:
            return slips(seed, count)
    if mode == "fonts" and len(words) >= 2:
        try:
            return fonts(words[0], words[1:])
        except OSError as why:
            sys.exit(f"FAILED: {why}")
    sys.exit(__doc__)


if __name__ == "__main__":
    sys.exit(0 if main(sys.argv[1:]) else 1)
