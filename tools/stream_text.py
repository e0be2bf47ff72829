"""The record stream of the rules as readable lines, and back: what bin/pack and bin/unpack do.

HELP below is the language. For every byte string x, pack(unpack(x)) is x: what can't be a record is given as `bytes` lines.
Both ways take a stream in blocks, cut anywhere, and keep no more of it than one line or one record.
"""
import math
import re
import struct
from itertools import chain, repeat

MARK = b"\x4F\x47"
OUTLINE, SPLIT, MERGE, REPORT, POSITION = 1, 2, 3, 4, 5
# The byte of a position that says which of the three it is.
MISSING, GRID, FIX = 0, 1, 2
MOST_POINTS = 2048

# A field: its letter in struct's layouts, and the least and the greatest number that it holds.
BYTE = ("B", 0, 2**8 - 1)
SHORT = ("H", 0, 2**16 - 1)
LONG = ("I", 0, 2**32 - 1)
COORDINATE = ("i", -(2**31), 2**31 - 1)

WORD = re.compile(r"\S+")
NUMBER = re.compile("[+-]?[0-9]+")
METRES = re.compile(r"[+-]?(inf|nan|([0-9]+\.?[0-9]*|\.[0-9]+)([eE][+-]?[0-9]+)?)")
PATTERN = re.compile("0x[0-9A-Fa-f]{16}")
MOST_DIGITS = 20  # More than any field needs; longer words aren't turned into numbers at all.
MOST_DIGITS_OF_METRES = 1383  # A double written out in full: 309 before the point, 1074 after it.
HEX_BYTE = re.compile("[0-9A-Fa-f]{2}")
BYTES_A_LINE = 16
LONGEST_SHOWN = 30
LONGEST_LINE = 2**20  # In bytes. An outline of 2,048 vertices takes 48 KB without spare blanks.
BYTE_ORDER_MARK = b"\xEF\xBB\xBF"

HELP = f"""\
One record a line; numbers and words are separated by blanks:

    outline 0 0  4 0  4 4  0 4          the vertices, x y each; 0,0 4,0 4,4 0,4 means the same
    split 0 from 0 to 2                 district, first index, last index
    split 0 from 0 to 1 path 2 9  3 9   the same along a path of points
    merge 0 at 2 with 1 at 0 along 1    district and index, district and index, number of edges
    report 700 3 1                      report number, x y in millimetres
    report 701 fix 3.0625 -1.5          report number, a receiver's easting and northing in metres
    report 702 missing                  a report without a position
    report 703 grid 3 1                 x y again, as the receivers' kind of record
    bytes 4F 47 09                      any bytes in hex, for a broken record

A whole number may have a sign, and has {MOST_DIGITS} digits at most. A value in metres becomes the nearest double: 3, +3, 3., .5 and 1e3
are taken, with {MOST_DIGITS_OF_METRES} digits at most, and inf and nan, with a sign or without; 0x with 16 hex digits gives a double's bits.
`#` starts a comment, empty lines are skipped, and a line that ends in a backslash goes on in the next. The end of a file ends its last
line. A line, together with those that it goes on in, has {LONGEST_LINE} bytes at most.
"""


class Unreadable(Exception):
    """Text that is no record: the line, and a sentence for the clerk."""

    def __init__(self, line, sentence):
        super().__init__(line, sentence)
        self.line = line
        self.sentence = sentence


class Broken(Exception):
    """Bytes that are no record: in a few words, why."""


class Cut(Exception):
    """Bytes that are the beginning of a record."""


# Reports, many at once


# A value of a report: as its plainest word in a line, which fits its field whatever the digits; as bytes of a record; its letter in
# struct's layouts; its number by its word. A double's last two bytes hold its exponent, which is all ones in infinities and NaNs.
MILLIMETRES = (rb"-?[01]?[0-9]{1,9}", rb".{4}", "i", int)
FINITE_METRES = (rb"-?[0-9]{1,9}(?:\.[0-9]{1,17})?(?:e[+-]?[0-9]{1,2})?", rb".{6}(?:[^\xF0-\xFF].|.[^\x7F\xFF])", "d", float)
NUMBERED = rb"report {1,9}[0-3]?[0-9]{1,9}"
LONGEST_RUN = 4096


class Reports:
    """Reports of one form. They are most of a long stream, so a run of plain ones is converted at once; all else goes one by one."""

    def __init__(self, kind, words, same, value, count):
        """The words between number and values, and the bytes that say the same in a record; then a sort of value, and how many."""
        in_line, in_record, letter, self.convert = value
        head, values = MARK + bytes([kind]), letter * count
        line = rb" {1,9}".join([NUMBERED, *map(str.encode, words), *[in_line] * count])
        self.lines = re.compile(rb"(?:%b {0,9}\r?\n){1,%d}" % (line, LONGEST_RUN))
        self.records = re.compile(rb"(?:%b.{4}%b%b){1,%d}" % (head, same, in_record * count, LONGEST_RUN), re.DOTALL)
        self.width = 2 + len(words) + count
        self.columns = range(2 + len(words), self.width)
        self.heads, self.sames = repeat(head), repeat(same)
        self.pack_one = struct.Struct(f"<3sI{len(same)}s{values}").pack
        self.unpack_each = struct.Struct(f"<3xI{len(same)}x{values}").iter_unpack
        self.line = " ".join(["report %r", *words, *["%r"] * count]) + "\n"

    def pack(self, lines):
        words = lines.split()
        numbers = map(int, words[1 :: self.width])
        values = (map(self.convert, words[column :: self.width]) for column in self.columns)
        return b"".join(map(self.pack_one, self.heads, numbers, self.sames, *values))

    def unpack(self, records):
        return "".join(map(self.line.__mod__, self.unpack_each(records)))


FORMS = (
    Reports(REPORT, [], b"", MILLIMETRES, 2),
    Reports(POSITION, ["fix"], bytes([FIX]), FINITE_METRES, 2),
    Reports(POSITION, ["grid"], bytes([GRID]), MILLIMETRES, 2),
    Reports(POSITION, ["missing"], bytes([MISSING]), MILLIMETRES, 0),
)


def pack_run(text, place):
    """The records of the plain report lines of one form from this place on, and the place after them; nothing, if there are none."""
    for form in FORMS:
        if run := form.lines.match(text, place):
            return form.pack(run[0]), run.end()
    return b"", place


def unpack_run(stream, place):
    """The same for records and their lines."""
    for form in FORMS:
        if run := form.records.match(stream, place):
            return form.unpack(run[0]), run.end()
    return "", place


# Packing


def pack(text):
    """The records that the text's lines say. Unreadable, if one of them says none."""
    return b"".join(packed([text.encode()]))


def packed(blocks):
    """The same for a text in blocks of bytes: each record is given, alone or with others, when a block ends its line."""
    packer = Packer()
    for block in blocks:
        yield from packer.take(block)
    yield from packer.end()


class Packer:
    """What has to be kept from one block to the next."""

    def __init__(self):
        # The number of lines that are packed, and the beginning of the line after them.
        self.line = 0
        self.held = bytearray()
        # The lines of a record that goes on, each with its line end, and the number of the last that says so.
        self.begun = bytearray()
        self.promise = 0

    def take(self, block):
        end = block.rfind(b"\n") + 1
        if end:
            text = bytes(self.held) + block[:end]
            self.held.clear()
            yield from self.pack_lines(text)
        self.held += block[end:]
        if len(self.held) > LONGEST_LINE:
            self.refuse_length(self.line + 1)

    def end(self):
        if self.held:
            yield from self.pack_lines(bytes(self.held) + b"\n")
        if self.begun:
            raise Unreadable(self.promise, "the text ends in a backslash, which promises another line")

    def refuse_length(self, line):
        raise Unreadable(line, f"the line is longer than {LONGEST_LINE} bytes, the most that are taken")

    def pack_lines(self, text):
        """The records of lines that are all ended."""
        place = 0
        while place < len(text):
            records, end = (b"", place) if self.begun else pack_run(text, place)
            if records:
                self.line += text.count(b"\n", place, end)
            else:
                end = text.index(b"\n", place) + 1
                records = self.pack_line(text[place:end])
            yield records
            place = end

    def pack_line(self, line):
        """The record that this line ends, or nothing."""
        self.line += 1
        if len(self.begun) + len(line) - 1 > LONGEST_LINE:
            self.refuse_length(self.line)
        if self.line == 1:
            line = line.removeprefix(BYTE_ORDER_MARK)
        # Bytes that are no UTF-8 may stand in comments; elsewhere they make a word that is refused.
        said = line.decode(errors="replace").partition("#")[0].strip()
        if said.endswith("\\"):
            self.promise = self.line
            self.begun += said[:-1].encode() + b"\n"
        elif said:
            if self.begun:
                said = self.begun.decode() + said
                self.begun.clear()
            return pack_record(Words(said, self.line))
        elif self.begun:
            self.begun += b"\n"
        return b""


class Words:
    """The words of one record that aren't read yet. Errors name the line of the last word read."""

    def __init__(self, said, last_line):
        self.said = said
        self.last_line = last_line
        self.coming = WORD.finditer(said)
        self.read = self.left = next(self.coming)

    def refuse(self, sentence):
        raise Unreadable(self.last_line - self.said.count("\n", self.read.start()), sentence)

    def take(self, what):
        if not self.left:
            self.refuse(f"{what} is missing")
        self.read = self.left
        self.left = next(self.coming, None)
        return self.read[0]

    def keyword(self, expected):
        word = self.take(f"the word '{expected}'")
        if word != expected:
            self.refuse(f"the word '{expected}' should stand where '{shown(word)}' is")

    def number(self, what, field):
        return self.in_field(self.take(what), what, field)

    def in_field(self, word, what, field):
        _, least, most = field
        if not NUMBER.fullmatch(word):
            self.refuse(f"{what} should be a whole number, and '{shown(word)}' is none")
        self.bound_digits(word, what, MOST_DIGITS)
        value = int(word)
        if not least <= value <= most:
            self.refuse(f"{what} is {shown(word)}, and its field holds {least} to {most} only")
        return value

    def bound_digits(self, word, what, most):
        if len(word) > most and (digits := sum(map(str.isdigit, word))) > most:
            self.refuse(f"{what} has {digits} digits, and {most} are the most that are taken")

    def point(self):
        """Two words `x y`, or one word `x,y`."""
        word = self.take("an x")
        if "," in word:
            x, _, y = word.partition(",")
        else:
            if not self.left:
                self.refuse(f"the x {shown(word)} at the end has no y")
            x, y = word, self.take("a y")
        return self.in_field(x, "an x", COORDINATE), self.in_field(y, "a y", COORDINATE)

    def metres(self, what):
        """The eight bytes of a double."""
        word = self.take(what)
        if PATTERN.fullmatch(word):
            return struct.pack("<Q", int(word, 16))
        if not METRES.fullmatch(word):
            self.refuse(f"{what} should be a number of metres, and '{shown(word)}' is none")
        self.bound_digits(word, what, MOST_DIGITS_OF_METRES)
        value = float(word)
        if math.isinf(value) and "inf" not in word:
            self.refuse(f"{what} is {shown(word)}, and no double is as large ('inf' writes an infinity)")
        return struct.pack("<d", value)

    def points(self, what):
        points = []
        while self.left:
            if len(points) == MOST_POINTS:
                self.refuse(f"{what} has more than {MOST_POINTS} points, the most that a record holds (use 'bytes' to write more)")
            points.append(self.point())
        return points

    def end(self):
        if self.left:
            self.read = self.left
            self.refuse(f"the record is complete before '{shown(self.left[0])}'")


def shown(word):
    """A word as a message gives it: not too long, and with nothing in it that a terminal would obey."""
    start = "".join(letter if letter.isprintable() else "?" for letter in word[:LONGEST_SHOWN])
    return start if len(word) <= LONGEST_SHOWN else start + ".."


def pack_record(words):
    kind = words.take("the kind of record")
    if kind not in PACKERS:
        words.refuse(f"'{shown(kind)}' is no kind of record; the kinds are {', '.join(PACKERS)}")
    record = PACKERS[kind](words)
    words.end()
    return record


def pack_outline(words):
    vertices = words.points("the outline")
    return fields(OUTLINE, (SHORT, len(vertices))) + pack_points(vertices)


def pack_split(words):
    district = words.number("the district", BYTE)
    words.keyword("from")
    first = words.number("the first index", SHORT)
    words.keyword("to")
    last = words.number("the last index", SHORT)
    path = []
    if words.left:
        words.keyword("path")
        path = words.points("the path")
        if not path:
            words.refuse("the word 'path' is followed by no point")
    return fields(SPLIT, (BYTE, district), (SHORT, first), (SHORT, last), (SHORT, len(path))) + pack_points(path)


def pack_merge(words):
    kept = words.number("the district to keep", BYTE)
    words.keyword("at")
    kept_index = words.number("the index in the district to keep", SHORT)
    words.keyword("with")
    freed = words.number("the district to take in", BYTE)
    words.keyword("at")
    freed_index = words.number("the index in the district to take in", SHORT)
    words.keyword("along")
    edges = words.number("the number of edges", SHORT)
    return fields(MERGE, (BYTE, kept), (SHORT, kept_index), (BYTE, freed), (SHORT, freed_index), (SHORT, edges))


def pack_report(words):
    report = words.number("the report's number", LONG)
    form = words.left[0] if words.left else None
    if form not in POSITIONS:
        return fields(REPORT, (LONG, report)) + pack_points([words.point()])
    words.keyword(form)
    what, pack_values = POSITIONS[form]
    return fields(POSITION, (LONG, report), (BYTE, what)) + pack_values(words)


def pack_missing(words):
    return b""


def pack_grid(words):
    return pack_points([words.point()])


def pack_fix(words):
    return words.metres("the easting") + words.metres("the northing")


POSITIONS = {"missing": (MISSING, pack_missing), "grid": (GRID, pack_grid), "fix": (FIX, pack_fix)}


def pack_bytes(words):
    if not words.left:
        words.refuse("the word 'bytes' is followed by no byte")
    said = bytearray()
    while words.left:
        word = words.take("a byte")
        if not HEX_BYTE.fullmatch(word):
            words.refuse(f"a byte is two hex digits, and '{shown(word)}' isn't")
        said.append(int(word, 16))
    return bytes(said)


PACKERS = {"outline": pack_outline, "split": pack_split, "merge": pack_merge, "report": pack_report, "bytes": pack_bytes}


def fields(kind, *values):
    """A record's mark and kind, then the values, each given with its field."""
    layout = "".join(code for (code, _, _), _ in values)
    return MARK + struct.pack("<B" + layout, kind, *(value for _, value in values))


def pack_points(points):
    return struct.pack(f"<{2 * len(points)}i", *chain.from_iterable(points))


# Unpacking


def unpack(stream):
    """The lines for any bytes: a record each, up to the first broken one, which is given as bytes with all that follows it."""
    return "".join(unpacked([stream]))


def unpacked(blocks):
    """The same for a stream in blocks: each record's line is given, alone or with others, when a block ends the record."""
    unpacker = Unpacker()
    for block in blocks:
        yield from unpacker.take(block)
    yield from unpacker.end()


class Unpacker:
    """What has to be kept from one block to the next: the beginning of a record, or of a line of bytes once a record was broken."""

    def __init__(self):
        self.held = b""
        self.broken = False

    def take(self, block):
        stream, place = self.held + block, 0
        while place < len(stream) and not self.broken:
            try:
                lines, end = unpack_from(stream, place)
            except Cut:
                break
            except Broken as broken:
                self.broken = True
                lines, end = broken_from_here(broken), place
            yield lines
            place = end
        if self.broken:
            end = len(stream) - (len(stream) - place) % BYTES_A_LINE
            yield bytes_lines(stream[place:end])
            place = end
        self.held = stream[place:]

    def end(self):
        if self.held and not self.broken:
            yield broken_from_here("the record is cut")
        yield bytes_lines(self.held)


def broken_from_here(why):
    return f"# no record can be read from here on: {why}\n"


def unpack_from(stream, place):
    """The lines of a run of reports at this place, or else of the one record there, and the place after it."""
    lines, end = unpack_run(stream, place)
    if lines:
        return lines, end
    record = Fields(stream, place)
    return unpack_record(record) + "\n", record.place


class Fields:
    """A place in the stream that moves on as fields are read."""

    def __init__(self, stream, place):
        self.stream = stream
        self.place = place

    def take(self, layout):
        layout = "<" + layout
        if self.place + struct.calcsize(layout) > len(self.stream):
            raise Cut
        values = struct.unpack_from(layout, self.stream, self.place)
        self.place += struct.calcsize(layout)
        return values

    def points(self, count):
        if count > MOST_POINTS:
            raise Broken(f"{count} points are more than {MOST_POINTS}")
        numbers = self.take("ii" * count)
        return "  ".join(f"{x} {y}" for x, y in zip(numbers[::2], numbers[1::2]))


def unpack_record(record):
    mark = bytes(record.take("BB"))
    if mark != MARK:
        raise Broken("the mark is wrong")
    (kind,) = record.take("B")
    if kind not in UNPACKERS:
        raise Broken(f"kind {kind} is unknown")
    return UNPACKERS[kind](record)


def unpack_outline(record):
    (count,) = record.take("H")
    return f"outline {record.points(count)}".rstrip()


def unpack_split(record):
    district, first, last, count = record.take("BHHH")
    path = record.points(count)
    return f"split {district} from {first} to {last}" + (f" path {path}" if count else "")


def unpack_merge(record):
    kept, kept_index, freed, freed_index, edges = record.take("BHBHH")
    return f"merge {kept} at {kept_index} with {freed} at {freed_index} along {edges}"


def unpack_report(record):
    report, x, y = record.take("Iii")
    return f"report {report} {x} {y}"


def unpack_position(record):
    report, what = record.take("IB")
    if what == MISSING:
        return f"report {report} missing"
    if what == GRID:
        return f"report {report} grid {record.points(1)}"
    if what == FIX:
        easting, northing = record.take("QQ")
        return f"report {report} fix {metres(easting)} {metres(northing)}"
    raise Broken(f"a position of kind {what} is unknown")


def metres(bits):
    """A double by its bits: as the shortest number that packs into it again, and a NaN by the bits themselves."""
    (value,) = struct.unpack("<d", struct.pack("<Q", bits))
    return f"0x{bits:016X}" if math.isnan(value) else repr(value)


UNPACKERS = {
    OUTLINE: unpack_outline,
    SPLIT: unpack_split,
    MERGE: unpack_merge,
    REPORT: unpack_report,
    POSITION: unpack_position,
}


def bytes_lines(rest):
    starts = range(0, len(rest), BYTES_A_LINE)
    return "".join(f"bytes {rest[start : start + BYTES_A_LINE].hex(' ').upper()}\n" for start in starts)
