"""Streams made from a seed: lives of registers with splits, merges and reports, with refused records among them, and damaged ones.

A maker keeps the register of second.py beside the stream, so that most of what it asks for can be accepted.
"""
import random

from second import GRID, NUMBERS, Refused, Register
from stream_text import pack

# Kinds of lives, and how many streams there are of each.
KINDS = {"small": 45, "wide": 25, "refused": 30, "crowded": 10, "damaged": 40}
SMALL = range(-1, 8)
WIDE = [0, 1, -1, GRID, -GRID, GRID - 1, 1 - GRID, GRID // 2, -GRID // 3, GRID - 12345]
BEYOND = [GRID + 1, -GRID - 1, 2**31 - 1, -(2**31)]
MOST_REPORT = 2**32 - 1


class Maker:
    """One stream in the making. `coordinates` are those of rings and paths; `refused_share` of the records have made-up fields."""

    def __init__(self, rng, coordinates, refused_share):
        self.rng = rng
        self.coordinates = coordinates
        self.refused_share = refused_share
        self.register = Register()
        self.lines = []

    def stream(self):
        return pack("\n".join(self.lines))

    def point(self):
        return self.rng.choice(self.coordinates), self.rng.choice(self.coordinates)

    def points(self, least, most):
        return [self.point() for _ in range(self.rng.randint(least, most))]

    def strange_point(self):
        """A point with one coordinate beyond the grid."""
        beyond, allowed = self.rng.choice(BEYOND), self.rng.choice(self.coordinates)
        return self.rng.choice([(beyond, allowed), (allowed, beyond)])

    def found(self, least, most):
        self.outline(self.repeated(self.points(least, most)))

    def repeated(self, vertices):
        """As they are, with a doubled corner, with a spike, or twice over."""
        at = self.rng.randrange(len(vertices))
        before, behind = vertices[: at + 1], vertices[at:]
        return self.rng.choice([vertices, before + behind, before + [self.point()] + behind, vertices * 2])

    def outline(self, vertices):
        self.lines.append(f"outline {words(vertices)}")
        self.apply(self.register.found, vertices)

    def split(self, d, i, j, path):
        self.lines.append(f"split {d} from {i} to {j}" + (f" path {words(path)}" if path else ""))
        self.apply(self.register.split, d, i, j, path)

    def merge(self, a_number, a, b_number, b, k):
        self.lines.append(f"merge {a_number} at {a} with {b_number} at {b} along {k}")
        self.apply(self.register.merge, a_number, a, b_number, b, k)

    def report(self, point):
        """In one of the three forms that a point has; the millimetre nearest to the fix is the point or one next to it."""
        x, y = point
        fix = f"fix {self.metres(x)} {self.metres(y)}"
        self.report_at(self.rng.choice([words([point]), f"grid {words([point])}", fix]))

    def metres(self, millimetres):
        return repr((millimetres + self.rng.choice([0, 0.5, -0.5, self.rng.uniform(-0.5, 0.5)])) / 1000)

    def report_at(self, position):
        number = self.rng.choice([0, MOST_REPORT, self.rng.randint(0, MOST_REPORT), self.rng.randint(1, 99_999)])
        self.lines.append(f"report {number} {position}")

    @staticmethod
    def apply(call, *arguments):
        try:
            call(*arguments)
        except Refused:
            pass

    def any_district(self):
        return self.rng.choice(sorted(self.register.districts))

    def split_somewhere(self, least_path, most_path):
        d = self.any_district()
        i, j = self.rng.sample(range(len(self.register.districts[d])), 2)
        self.split(d, i, j, self.points(least_path, most_path))

    def merge_somewhere(self):
        """Along a border that is there, all of it or a part; nothing if no two districts share an edge."""
        borders = self.borders()
        if borders:
            a_number, a, b_number, b = self.rng.choice(borders)
            most = shared_edges(self.register.districts[a_number], a, self.register.districts[b_number], b)
            self.merge(a_number, a, b_number, b, self.rng.choice([1, most, self.rng.randint(1, most)]))

    def borders(self):
        """A, a, B, b for each edge of A from a on that is B's from b on backwards."""
        backwards = {}
        for b_number, ring in self.register.districts.items():
            for b in range(len(ring)):
                backwards.setdefault((ring[b], ring[b - 1]), []).append((b_number, b))
        return [
            (a_number, a, b_number, b)
            for a_number, ring in self.register.districts.items()
            for a in range(len(ring))
            for b_number, b in backwards.get((ring[a], ring[(a + 1) % len(ring)]), [])
            if b_number != a_number
        ]

    def report_somewhere(self):
        """A point like those of the rings, a vertex, or close to the middle of an edge: within a millimetre, so on it only by chance."""
        ring = self.register.districts[self.any_district()]
        at = self.rng.randrange(len(ring))
        (px, py), (qx, qy) = ring[at - 1], ring[at]
        near = (px + qx) // 2 + self.rng.randint(-1, 1), (py + qy) // 2 + self.rng.randint(-1, 1)
        self.report(self.rng.choice([self.point(), self.point(), ring[at], near]))

    def strange_record(self):
        """A record with one or more fields that are seldom right."""
        kinds = [self.strange_outline, self.strange_split, self.strange_merge, self.strange_report]
        self.rng.choice(kinds)()

    def strange_outline(self):
        vertices = self.points(0, 4)
        if self.rng.random() < 0.5:
            vertices.append(self.strange_point())
        self.outline(vertices)

    def strange_split(self):
        path = self.points(0, 2)
        if self.rng.random() < 0.3:
            path.append(self.strange_point())
        self.split(self.strange_number(), self.strange_index(), self.strange_index(), path)

    def strange_merge(self):
        self.merge(
            self.strange_number(), self.strange_index(), self.strange_number(), self.strange_index(), self.strange_index()
        )

    def strange_report(self):
        if self.rng.random() < 0.5:
            self.report(self.rng.choice([self.point(), self.strange_point()]))
        else:
            self.report_at(self.rng.choice(["missing", f"fix {self.strange_metres()} {self.strange_metres()}"]))

    def strange_metres(self):
        """A double of any bits, or one that is seldom sent."""
        return self.rng.choice([f"0x{self.rng.getrandbits(64):016X}", "nan", "inf", "-inf", "-0.0", "5e-324", "1e300", "0.0625"])

    def strange_number(self):
        return self.rng.choice([*self.register.districts, *self.register.districts, 1, 63, 64, 255])

    def strange_index(self):
        return self.rng.choice([0, 1, 2, 0, 1, 2, 3, 7, 2047, 65535])

    def step(self):
        chance = self.rng.random()
        if self.rng.random() < self.refused_share:
            self.strange_record()
        elif chance < 0.2:
            self.split_somewhere(0, 3)
        elif chance < 0.35:
            self.merge_somewhere()
        else:
            self.report_somewhere()


def words(points):
    return "  ".join(f"{x} {y}" for x, y in points)


def shared_edges(ring_a, a, ring_b, b):
    """How many edges from A's index a on are B's from b on backwards; fewer than either ring has."""
    k = 0
    while k + 1 < min(len(ring_a), len(ring_b)) and ring_a[(a + k + 1) % len(ring_a)] == ring_b[(b - k - 1) % len(ring_b)]:
        k += 1
    return k


def life(rng, coordinates, refused_share, steps):
    maker = Maker(rng, coordinates, refused_share)
    while rng.random() < refused_share:
        maker.strange_record()
    if maker.register.outline is None:
        maker.found(3, 9)
    for _ in range(steps):
        maker.step()
    return maker.stream()


def crowded_life(rng):
    """Until all numbers are in use, or all room: many splits with short paths, or few with long ones. Then merges make some free."""
    maker = Maker(rng, SMALL, 0.0)
    maker.found(3, 12)
    longest = rng.choice([2, 200])
    for _ in range(len(NUMBERS) + 40):
        maker.split_somewhere(longest // 2, longest)
    for _ in range(10):
        maker.merge_somewhere()
        maker.split_somewhere(0, longest)
        maker.report_somewhere()
    return maker.stream()


def damaged(rng, stream):
    """Cut at a byte, or with a byte changed, lost or added."""
    place = rng.randrange(len(stream))
    how = rng.randrange(4)
    if how == 0:
        return stream[:place]
    if how == 1:
        return stream[:place] + bytes([rng.randrange(256)]) + stream[place + 1 :]
    if how == 2:
        return stream[:place] + stream[place + 1 :]
    return stream[:place] + bytes([rng.randrange(256)]) + stream[place:]


def made_streams(seed):
    """A name and a stream for each."""
    for kind, count in KINDS.items():
        for number in range(count):
            rng = random.Random(f"{seed} {kind} {number}")
            yield f"made-{kind}-{number}", made_stream(kind, rng)


def made_stream(kind, rng):
    if kind == "crowded":
        return crowded_life(rng)
    if kind == "damaged":
        return damaged(rng, life(rng, SMALL, 0.1, rng.randint(1, 30)))
    coordinates = WIDE if kind == "wide" else SMALL
    return life(rng, coordinates, 0.5 if kind == "refused" else 0.0, rng.randint(20, 150))


def made_bytes(seed, count):
    """Byte strings of all sorts: noise, and damaged streams."""
    rng = random.Random(f"{seed} bytes")
    for number in range(count):
        if number % 2:
            yield rng.randbytes(rng.randrange(60))
        else:
            yield damaged(rng, life(rng, SMALL, 0.3, 5))


def long_stream(seed, least_bytes):
    """Reports of one life, and now and then a record of up to 16 KB that is refused: it lies across the ends of any buffer."""
    rng = random.Random(f"{seed} long")
    maker = Maker(rng, SMALL, 0.0)
    maker.found(5, 5)
    maker.split_somewhere(1, 1)
    size = 0
    while size < least_bytes:
        if rng.random() < 0.002:
            vertices = maker.points(0, 2048)
            maker.outline(vertices)
            size += 5 + 8 * len(vertices)
        else:
            maker.report_somewhere()
            size += 15
    return maker.stream()
