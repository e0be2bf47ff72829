"""Streams of many reports, to time the grouping program with: on a small register, and on a full one of 64 districts and 2,048 vertices."""
import random
import struct

from second import Register
from stream_text import pack

CELL = 1_000_000
CELLS = 8
SIDE = CELLS * CELL
# Points on each border, so that all districts together have 2,048 vertices.
POINTS_UP = 6
POINTS_ACROSS = 10
SWING = 30_000


def reports(count, seed):
    chance = random.Random(seed)
    return b"".join(b"\x4F\x47\x04" + struct.pack("<Iii", r, chance.randrange(SIDE), chance.randrange(SIDE)) for r in range(count))


def small_register():
    return pack(f"outline 0 0  {SIDE} 0  {SIDE} {SIDE}  0 {SIDE}\nsplit 0 from 0 to 2\n")


class Writer:
    """A register of second.py, and the lines that made it, so that splits can be written by points and not by indices."""

    def __init__(self, vertices):
        self.register = Register()
        self.register.found(vertices)
        self.lines = ["outline " + listed(vertices)]

    def split(self, district, start, end, path):
        ring = self.register.districts[district]
        i, j = ring.index(start), ring.index(end)
        self.lines.append(f"split {district} from {i} to {j} path {listed(path)}")
        return self.register.split(district, i, j, path)


def listed(points):
    return "  ".join(f"{x} {y}" for x, y in points)


def zigzag(start, end, count):
    """Points on the way, to either side of it in turn."""
    points = []
    for t in range(1, count + 1):
        x = start[0] + (end[0] - start[0]) * t // (count + 1)
        y = start[1] + (end[1] - start[1]) * t // (count + 1)
        aside = SWING if t % 2 else -SWING
        points.append((x + aside, y) if start[0] == end[0] else (x, y + aside))
    return points


def full_register():
    """A square cut into strips from south to north, and each strip into cells."""
    steps = range(CELLS)
    outline = [(k * CELL, 0) for k in steps] + [(SIDE, k * CELL) for k in steps]
    outline += [(SIDE - k * CELL, SIDE) for k in steps] + [(0, SIDE - k * CELL) for k in steps]
    writer = Writer(outline)
    rest = 0
    for k in range(CELLS):
        strip = rest
        if k + 1 < CELLS:
            x = (k + 1) * CELL
            new = writer.split(rest, (x, 0), (x, SIDE), border_up(x))
            strip, rest = (rest, new) if (k * CELL, 0) in writer.register.districts[rest] else (new, rest)
        cut_strip(writer, strip, k * CELL)
    return pack("\n".join(writer.lines) + "\n")


def border_up(x):
    path = []
    for k in range(CELLS):
        path += zigzag((x, k * CELL), (x, (k + 1) * CELL), POINTS_UP)
        path.append((x, (k + 1) * CELL))
    return path[:-1]


def cut_strip(writer, district, x):
    for k in range(1, CELLS):
        start, end = (x, k * CELL), (x + CELL, k * CELL)
        new = writer.split(district, start, end, zigzag(start, end, POINTS_ACROSS))
        if (x, (k + 1) * CELL) in writer.register.districts[new]:
            district = new
