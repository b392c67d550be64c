#!/usr/bin/env python3
"""How far a point is from where it was, after a matrix of order 3 and its inverse: the figures of docs/ASSURANCE.md.

Usage: tools/there_and_back.py LIBRARY.so [SEED]

The library is a shared object made of libmigthumo.a:
    cc -shared -Wl,--whole-archive prebuilt/x86_64-linux/libmigthumo.a -Wl,--no-whole-archive -o LIBRARY.so
Each kind prints how many pairs of a matrix and a point were asked, how many came back exactly, and the largest
distance in units, with its matrix (columns) and its point. It shows what was seen, and proves nothing.
"""
import ctypes
import math
import random
import sys

if len(sys.argv) < 2:
    sys.exit(__doc__)
D = ctypes.c_double
lib = ctypes.CDLL(sys.argv[1])
seed = int(sys.argv[2]) if len(sys.argv) > 2 else 11
S = ctypes.c_size_t
P = ctypes.POINTER(D)
lib.migthumo_invert.argtypes = [S, P, S, P, S]
lib.migthumo_determinant.argtypes = [S, P, S, P, S]
lib.migthumo_move_points.argtypes = [S, P, S, P, S, P, S]
for f in (lib.migthumo_invert, lib.migthumo_determinant, lib.migthumo_move_points):
    f.restype = ctypes.c_uint32


def invert(m, n=3):
    """The inverse, or the refusal's number."""
    out = (D * (n * n))()
    answer = lib.migthumo_invert(n, (D * (n * n))(*m), n * n, out, n * n)
    return list(out) if answer == 0 else answer


def determinant(m, n=3):
    out = (D * 1)()
    assert lib.migthumo_determinant(n, (D * (n * n))(*m), n * n, out, 1) == 0
    return out[0]


def move(m, points):
    out = (D * len(points))()
    assert lib.migthumo_move_points(3, (D * 9)(*m), 9, points, len(points), out, len(points)) == 0
    return out


class Kind:
    def __init__(self, name):
        self.name, self.pairs, self.same, self.refused, self.matrices = name, 0, 0, 0, 0
        self.worst, self.where = -1.0, None

    def ask(self, m, points):
        self.matrices += 1
        back = invert(m)
        if isinstance(back, int):
            self.refused += 1
            return
        there = move(m, points)
        home = move(back, there)
        here = -1.0
        for i in range(0, len(points), 2):
            d = math.hypot(home[i] - points[i], home[i + 1] - points[i + 1])
            self.pairs += 1
            self.same += d == 0.0
            if d > here:
                here, at = d, i
        if here > self.worst:
            self.worst, self.where = here, (list(m), (points[at], points[at + 1]), determinant(m))

    def tell(self):
        m, p, det = self.where
        print(f"{self.name}: {self.matrices} matrices, {self.refused} refused, {self.pairs} pairs, {self.same} exact")
        print(f"    largest {self.worst:.3e} at columns {m[0:3]} {m[3:6]} {m[6:9]}, point {p}, determinant {det!r}", flush=True)


def points(r, n=200, limit=2000):
    return (D * (2 * n))(*[r.randint(-limit, limit) for _ in range(2 * n)])


def decimals(r, low, high):
    """A number between low and high with two or three decimals, as a person writes it."""
    return r.randint(round(low * 100), round(high * 100)) / 100 if r.random() < 0.5 else r.randint(round(low * 1000), round(high * 1000)) / 1000


def offsets(r):
    return r.randint(-1000, 1000), r.randint(-1000, 1000)


def affine(a, b, c, d, x, y):
    """Columns (a, b, 0), (c, d, 0), (x, y, 1)."""
    return [a, b, 0.0, c, d, 0.0, float(x), float(y), 1.0]


def with_sum(r, limit, wanted):
    """Whole a, b, c, d of magnitude up to the limit, a*d - c*b the number wanted."""
    while True:
        a, b = r.randint(limit // 2, limit), r.randint(limit // 2, limit)
        if math.gcd(a, b) != 1:
            continue
        d = wanted * pow(a, -1, b) % b
        c = (a * d - wanted) // b
        assert a * d - c * b == wanted
        k = r.choice([0, -1, 1])
        d, c = d + k * b, c + k * a
        if abs(c) <= limit and abs(d) <= limit:
            if r.random() < 0.5:
                return a, b, c, d
            return a, c, b, d


def main():
    r = random.Random(seed)
    print(f"seed {seed}")

    k = Kind("uniform scales, every one of 0.100 .. 3.000 by thousandths, whole offsets to 1000")
    for n in range(100, 3001):
        for _ in range(4):
            k.ask(affine(n / 1000, 0.0, 0.0, n / 1000, *offsets(r)), points(r, 100))
    k.tell()

    k = Kind("nonuniform scales 0.1 .. 3, whole offsets to 1000")
    for _ in range(10000):
        k.ask(affine(decimals(r, 0.1, 3), 0.0, 0.0, decimals(r, 0.1, 3), *offsets(r)), points(r))
    k.tell()

    k = Kind("rotations by whole degrees times a scale 0.1 .. 3, whole offsets to 1000")
    for _ in range(10000):
        t, s = math.radians(r.randint(0, 359)), decimals(r, 0.1, 3)
        k.ask(affine(s * math.cos(t), s * math.sin(t), -s * math.sin(t), s * math.cos(t), *offsets(r)), points(r))
    k.tell()

    k = Kind("skews: a diagonal 0.1 .. 3, one other entry -1 .. 1, whole offsets to 1000")
    for _ in range(10000):
        e = decimals(r, -1, 1)
        b, c = (e, 0.0) if r.random() < 0.5 else (0.0, e)
        k.ask(affine(decimals(r, 0.1, 3), b, c, decimals(r, 0.1, 3), *offsets(r)), points(r))
    k.tell()

    for low in (1.0, 0.1, 0.01):
        k = Kind(f"any four entries -3 .. 3 with two or three decimals, determinant at least {low}, whole offsets to 1000")
        while k.matrices < 10000:
            m = affine(*[decimals(r, -3, 3) for _ in range(4)], *offsets(r))
            if abs(determinant(m)) >= low:
                k.ask(m, points(r))
        k.tell()

    for s in (1, 3, 5, 7):
        k = Kind(f"whole entries to 1024 with the sum {s} or -{s}, whole offsets to 1000")
        for _ in range(10000):
            a, b, c, d = with_sum(r, 1024, r.choice([s, -s]))
            k.ask(affine(float(a), float(b), float(c), float(d), *offsets(r)), points(r))
        k.tell()

    k = Kind("entries in thousandths to 3, nearly flat: determinant 1 to 9 millionths, whole offsets to 1000")
    for _ in range(10000):
        a, b, c, d = with_sum(r, 3000, r.choice([1, 2, 3, 4, 5, 6, 7, 8, 9]) * r.choice([1, -1]))
        k.ask(affine(a / 1000, b / 1000, c / 1000, d / 1000, *offsets(r)), points(r))
    k.tell()

    k = Kind("entries in hundredths to 3, nearly flat: determinant 1 to 9 ten-thousandths, whole offsets to 1000")
    for _ in range(10000):
        a, b, c, d = with_sum(r, 300, r.choice([1, 2, 3, 4, 5, 6, 7, 8, 9]) * r.choice([1, -1]))
        k.ask(affine(a / 100, b / 100, c / 100, d / 100, *offsets(r)), points(r))
    k.tell()


if __name__ == "__main__":
    main()
