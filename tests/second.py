"""A second grouping program, straight from the rules, to compare the first one with.

    python3 tests/second.py < STREAM

It shares nothing with the first: districts are separate lists of points that are never packed, numbers have no width, and
winding numbers are counted by crossings instead of quarter turns. Metres become millimetres by Python's fractions, whose `round` is exact
and takes halves to even.
"""
import math
import struct
import sys
from fractions import Fraction
from typing import NamedTuple

MOST_VERTICES = 2048
FEWEST_VERTICES = 3
GRID = 1_000_000_000
MILLIMETRES = 1000
NUMBERS = range(64)
CLASSES = ("one", "border", "none", "several")


# Rings


def determinant(p, q, r):
    return (p[0] - r[0]) * (q[1] - r[1]) - (q[0] - r[0]) * (p[1] - r[1])


def edges(ring):
    return zip(ring, ring[1:] + ring[:1])


def on_edge(p, q, r):
    """Whether r is a point of the closed segment from p to q."""
    return (
        determinant(p, q, r) == 0
        and min(p[0], q[0]) <= r[0] <= max(p[0], q[0])
        and min(p[1], q[1]) <= r[1] <= max(p[1], q[1])
    )


def touch(ring, r):
    """`vertex` or `edge`, and the lowest and the highest index of the vertices that are r, or else of the edges that hold it. None off the ring."""
    vertices = [i for i, p in enumerate(ring) if p == r]
    held = [i for i, (p, q) in enumerate(edges(ring)) if on_edge(p, q, r)]
    if vertices:
        return "vertex", min(vertices), max(vertices)
    return ("edge", min(held), max(held)) if held else None


def winding(ring, r):
    """How often the ring goes round r, which isn't on it: edges that cross the ray from r to the east, rising less falling.

    An edge has its lower end and not its upper one here, so that a vertex at r's level is crossed once.
    """
    turns = 0
    for p, q in edges(ring):
        if p[1] <= r[1] < q[1] and determinant(p, q, r) > 0:
            turns += 1
        elif q[1] <= r[1] < p[1] and determinant(p, q, r) < 0:
            turns -= 1
    return turns


def walk(ring, start, count):
    """`count` vertices forward round the ring, from index `start` on."""
    return [ring[(start + step) % len(ring)] for step in range(count)]


# Positions


class Fix(NamedTuple):
    """A receiver's position, in metres."""

    easting: float
    northing: float

    def finite(self):
        return math.isfinite(self.easting) and math.isfinite(self.northing)

    def millimetres(self):
        return round(Fraction(self.easting) * MILLIMETRES), round(Fraction(self.northing) * MILLIMETRES)


# The register


class Refused(Exception):
    """A refusal, with its number in the rules."""

    @property
    def number(self):
        return self.args[0]


def refuse_if(condition, number):
    if condition:
        raise Refused(number)


def beyond_grid(points):
    return any(abs(x) > GRID or abs(y) > GRID for x, y in points)


class Register:
    """An outline or none, and the rings of the district numbers in use. Each refusal stands where the rules has it in its order."""

    def __init__(self):
        self.outline = None
        self.districts = {}

    def found(self, vertices):
        refuse_if(self.outline is not None, 3)
        refuse_if(not FEWEST_VERTICES <= len(vertices) <= MOST_VERTICES, 4)
        refuse_if(beyond_grid(vertices), 5)
        self.outline = list(vertices)
        self.districts[0] = list(vertices)

    def split(self, d, i, j, path):
        """Answers the number of the new district."""
        refuse_if(self.outline is None, 2)
        refuse_if(d not in self.districts, 6)
        ring = self.districts[d]
        n = len(ring)
        refuse_if(i >= n or j >= n or i == j, 8)
        refuse_if(beyond_grid(path), 5)
        one = walk(ring, i, (j - i) % n + 1) + path[::-1]
        two = walk(ring, j, (i - j) % n + 1) + path
        refuse_if(min(len(one), len(two)) < FEWEST_VERTICES, 9)
        unused = [number for number in NUMBERS if number not in self.districts]
        refuse_if(not unused, 11)
        others = sum(len(other) for other in self.districts.values()) - n
        refuse_if(others + len(one) + len(two) > MOST_VERTICES, 12)
        self.districts[d] = one
        self.districts[unused[0]] = two
        return unused[0]

    def merge(self, a_number, a, b_number, b, k):
        """Answers the number that is kept."""
        refuse_if(self.outline is None, 2)
        refuse_if(a_number not in self.districts or b_number not in self.districts, 6)
        refuse_if(a_number == b_number, 7)
        ring_a, ring_b = self.districts[a_number], self.districts[b_number]
        na, nb = len(ring_a), len(ring_b)
        refuse_if(a >= na or b >= nb, 8)
        refuse_if(not (1 <= k < na and k < nb), 10)
        refuse_if(any(ring_a[(a + t) % na] != ring_b[(b - t) % nb] for t in range(k + 1)), 10)
        refuse_if(na + nb - 2 * k < FEWEST_VERTICES, 9)
        self.districts[a_number] = walk(ring_a, a + k, na - k + 1) + walk(ring_b, b + 1, nb - k - 1)
        del self.districts[b_number]
        return a_number

    def assign(self, position):
        """Answers the parts of the class, its word first. The position is None, a point in millimetres, or a Fix."""
        refuse_if(self.outline is None, 2)
        refuse_if(position is None, 19)
        refuse_if(isinstance(position, Fix) and not position.finite(), 18)
        point = position.millimetres() if isinstance(position, Fix) else position
        refuse_if(beyond_grid([point]), 5)
        numbers = sorted(self.districts)
        for d in numbers:
            place = touch(self.districts[d], point)
            if place is not None:
                return "border", d, *place
        around = [d for d in numbers if winding(self.districts[d], point) != 0]
        if not around:
            return ("none",)
        if len(around) == 1:
            return "one", around[0]
        return "several", around[0], len(around)


# The stream


class BrokenRecord(Exception):
    """Refusal 13."""


class Reader:
    """Reads little-endian fields off the front of the stream."""

    def __init__(self, stream):
        self.stream = stream
        self.place = 0

    def at_end(self):
        return self.place == len(self.stream)

    def fields(self, layout):
        size = struct.calcsize("<" + layout)
        piece = self.stream[self.place : self.place + size]
        if len(piece) < size:
            raise BrokenRecord
        self.place += size
        return struct.unpack("<" + layout, piece)

    def pairs(self, count):
        if count > MOST_VERTICES:
            raise BrokenRecord
        return [self.fields("ii") for _ in range(count)]

    def record(self):
        """The kind word and what the record holds."""
        if self.fields("BB") != (0x4F, 0x47):
            raise BrokenRecord
        (kind,) = self.fields("B")
        if kind == 1:
            (n,) = self.fields("H")
            return "outline", (self.pairs(n),)
        if kind == 2:
            d, i, j, k = self.fields("BHHH")
            return "split", (d, i, j, self.pairs(k))
        if kind == 3:
            return "merge", self.fields("BHBHH")
        if kind == 4:
            (r,) = self.fields("I")
            return "report", (r, self.fields("ii"))
        if kind == 5:
            r, what = self.fields("IB")
            return "report", (r, self.position(what))
        raise BrokenRecord

    def position(self, what):
        if what == 0:
            return None
        if what == 1:
            return self.fields("ii")
        if what == 2:
            return Fix(*self.fields("dd"))
        raise BrokenRecord


def group(stream):
    """The whole output for a stream."""
    reader, register, tally = Reader(stream), Register(), dict.fromkeys(CLASSES, 0)
    lines, number = [], 0
    while not reader.at_end():
        try:
            word, held = reader.record()
        except BrokenRecord:
            lines.append(f"{number} record refused 13")
            break
        lines.append(f"{number} {word} {answer(register, tally, word, held)}")
        number += 1
    counts = " ".join(f"{name} {tally[name]}" for name in CLASSES)
    lines.append(f"end {number} {counts}")
    return "".join(line + "\n" for line in lines)


def answer(register, tally, word, held):
    """What stands behind the kind word in the record's line. A report's number stands before its answer, refused or not."""
    try:
        if word == "outline":
            register.found(*held)
            return "ok"
        if word == "split":
            return f"ok {register.split(*held)}"
        if word == "merge":
            return f"ok {register.merge(*held)}"
        assigned = register.assign(held[1])
        tally[assigned[0]] += 1
        return " ".join(str(part) for part in (held[0], *assigned))
    except Refused as refused:
        return f"{held[0]} refused {refused.number}" if word == "report" else f"refused {refused.number}"


if __name__ == "__main__":
    sys.stdout.write(group(sys.stdin.buffer.read()))
