"""Streams at the limit of 2,048 points, each with its whole expected output; too large to be written out in tests/streams."""
from stream_text import BYTE, OUTLINE, SHORT, SPLIT, fields, pack, pack_points

MOST = 2048
SQUARE = "outline 0 0  4 0  4 4  0 4"
GARDENS = 64


def words(points):
    return "  ".join(f"{x} {y}" for x, y in points)


def long_ring(count):
    """An upright strip, 2 wide, with `count` vertices up its eastern side and down its western one."""
    half = count // 2
    return [(2, y) for y in range(half)] + [(0, y) for y in reversed(range(count - half))]


def zigzag(count):
    """A path that goes to and fro inside the square, with no end at a vertex of it."""
    return [(1 + step % 2, 2) for step in range(count)]


def written(*lines):
    return pack("\n".join(lines))


def outline_of_any_size(vertices):
    """An outline record, also one with more vertices than the packer allows."""
    return fields(OUTLINE, (SHORT, len(vertices))) + pack_points(vertices)


def split_of_any_size(path):
    return fields(SPLIT, (BYTE, 0), (SHORT, 0), (SHORT, 2), (SHORT, len(path))) + pack_points(path)


def listing(*lines):
    return "".join(line + "\n" for line in lines)


def largest_outline():
    """2,048 vertices are read and taken; then there is no room for a split, and a piece too small is found before that."""
    stream = written(
        f"outline {words(long_ring(MOST)[:-1])}  1000000001 0",
        f"outline {words(long_ring(MOST))}",
        f"outline {words(long_ring(MOST))}",
        "report 1 1 1022",
        "report 2 0 0",
        "report 3 3 5",
        "split 0 from 0 to 1",
        "split 0 from 0 to 2",
        "split 0 from 2047 to 2048",
        "split 0 from 2046 to 2047 path 1 1",
        "report 4 1 1",
    )
    return stream, listing(
        "0 outline refused 5",
        "1 outline ok",
        "2 outline refused 3",
        "3 report 1 one 0",
        "4 report 2 border 0 vertex 2047 2047",
        "5 report 3 none",
        "6 split refused 9",
        "7 split refused 12",
        "8 split refused 8",
        "9 split refused 12",
        "10 report 4 one 0",
        "end 11 one 2 border 1 none 1 several 0",
    )


def room_for_one_split():
    """2,046 vertices leave room for one split without a path, and for none with one."""
    stream = written(
        f"outline {words(long_ring(MOST - 2))}",
        "split 0 from 0 to 2 path 1 1",
        "split 0 from 1 to 2044",
        "split 1 from 0 to 2",
        "report 1 1 1",
    )
    return stream, listing(
        "0 outline ok",
        "1 split refused 12",
        "2 split ok 1",
        "3 split refused 12",
        "4 report 1 border 0 edge 2043 2043",
        "end 5 one 0 border 1 none 0 several 0",
    )


def room_short_by_one_vertex():
    """2,047 vertices and the 2 of a split without a path are one too many."""
    stream = written(f"outline {words(long_ring(MOST - 1))}", "split 0 from 1 to 2045", "report 1 1 1")
    return stream, listing("0 outline ok", "1 split refused 12", "2 report 1 one 0", "end 3 one 1 border 0 none 0 several 0")


def outline_with_one_vertex_too_many():
    """2,049 vertices, all there: a broken record, not refusal 4, and what follows isn't read."""
    stream = outline_of_any_size(long_ring(MOST + 1)) + written(SQUARE)
    return stream, listing("0 record refused 13", "end 0 one 0 border 0 none 0 several 0")


def largest_path():
    """A path of 2,048 points is read: refused for its own reasons, and reading goes on."""
    stream = written(
        SQUARE,
        f"split 0 from 0 to 2 path {words(zigzag(MOST))}",
        f"split 0 from 0 to 2 path {words(zigzag(MOST - 1))}  0 1000000001",
        f"split 0 from 0 to 4 path {words(zigzag(MOST))}",
        f"split 1 from 0 to 2 path {words(zigzag(MOST))}",
        "report 1 2 2",
    )
    return stream, listing(
        "0 outline ok",
        "1 split refused 12",
        "2 split refused 5",
        "3 split refused 8",
        "4 split refused 6",
        "5 report 1 one 0",
        "end 6 one 1 border 0 none 0 several 0",
    )


def path_with_one_point_too_many():
    """2,049 points, all there: a broken record, not refusal 12, and what follows isn't read."""
    stream = written(SQUARE) + split_of_any_size(zigzag(MOST + 1)) + written("report 1 2 2")
    return stream, listing("0 outline ok", "1 record refused 13", "end 1 one 0 border 0 none 0 several 0")


def longest_path_with_room():
    """4 vertices, 2 more and twice 1,021 are 2,048: taken, while 1,022 are refused. A merge gives the room back."""
    longest = f"split 0 from 0 to 2 path {words(zigzag(1021))}"
    stream = written(
        SQUARE,
        f"split 0 from 0 to 2 path {words(zigzag(1022))}",
        longest,
        "split 0 from 0 to 2",
        "report 1 2 2",
        "merge 0 at 2 with 1 at 0 along 1022",
        "report 2 2 2",
        longest,
        "split 1 from 0 to 2",
    )
    return stream, listing(
        "0 outline ok",
        "1 split refused 12",
        "2 split ok 1",
        "3 split refused 12",
        "4 report 1 border 0 vertex 4 1022",
        "5 merge ok 0",
        "6 report 2 one 0",
        "7 split ok 1",
        "8 split refused 12",
        "end 9 one 1 border 1 none 0 several 0",
    )


def no_number_and_no_room():
    """64 districts cut off a strip from its south; a long path is then refused for the numbers before it is for the room."""
    cuts = [f"split {d} from {2 * GARDENS - 2 * d} to 1" for d in range(GARDENS - 1)]
    stream = written(
        f"outline {words(long_ring(2 * GARDENS + 2))}",
        *cuts,
        f"split 0 from 0 to 2 path {words(zigzag(MOST))}",
        "split 0 from 0 to 2",
        "merge 0 at 3 with 1 at 2 along 1",
        f"split 0 from 0 to 2 path {words(zigzag(MOST))}",
        "split 0 from 0 to 2",
    )
    taken = [f"{d + 1} split ok {d + 1}" for d in range(GARDENS - 1)]
    return stream, listing(
        "0 outline ok",
        *taken,
        "64 split refused 11",
        "65 split refused 11",
        "66 merge ok 0",
        "67 split refused 12",
        "68 split ok 1",
        "end 69 one 0 border 0 none 0 several 0",
    )


def large_streams():
    """Name, stream and expected output of each."""
    for make in (
        largest_outline,
        room_for_one_split,
        room_short_by_one_vertex,
        outline_with_one_vertex_too_many,
        largest_path,
        path_with_one_point_too_many,
        longest_path_with_room,
        no_number_and_no_room,
    ):
        yield make.__name__.replace("_", "-"), *make()
