"""The commands bin/pack and bin/unpack: their arguments, files read one after the other, and each failure in one sentence.

What is ready is written before anything more is read, so that a stream can be watched through them. Reading and writing go by the
system's calls: Python's own standard output would lose what a short write leaves.
"""
import os
import select
import sys
from contextlib import suppress

from stream_text import HELP, Unreadable, packed, unpacked

TOP = os.path.dirname(os.path.dirname(os.path.realpath(__file__)))
DONE, UNREADABLE, USAGE, FAILED = 0, 1, 2, 3
STDIN, STDOUT, STDERR = 0, 1, 2
BLOCK = 2**16  # In bytes.

ARGUMENTS = """\
The files are read one after the other as one stream; - is standard input, as is no file at all. What is ready is written before more is
read.

"""
STATUSES = """
status 0: done; 1: an unreadable line (pack); 2: wrong usage; 3: the input can't be read or the output can't be written; 130: interrupted
"""


class Ended(Exception):
    """The command ends here: its status, and a sentence for standard error."""

    def __init__(self, status, sentence):
        super().__init__(status, sentence)
        self.status = status
        self.sentence = sentence


class Command:
    """A name, what it does, what it waits for at a terminal, and how it turns files into pieces of output."""

    def __init__(self, name, does, waits_for, convert):
        self.name = name
        self.does = does
        self.waits_for = waits_for
        self.convert = convert

    def run(self, words):
        """The status, after whatever is to be said on standard error."""
        output = Output()
        try:
            self.obey(words, output)
            output.flush()
        except Ended as ended:
            self.say(ended.sentence)
            return ended.status
        return DONE

    def obey(self, words, output):
        for word in words:
            if word in ("-h", "--help"):
                return output.put(self.help().encode())
            if word == "--version":
                return output.put(f"{self.name} (launchramp) {version()}\n".encode())
            if word.startswith("-") and word != "-":
                raise Ended(USAGE, f"there is no option '{word}' ({self.usage()})")
        try:
            for piece in self.convert(self.files(words or ["-"], output)):
                output.put(piece)
        except Ended:
            # What came before is whole and goes out, unless it is the output that failed.
            output.flush()
            raise

    def usage(self):
        return f"usage: {self.name} [--help] [--version] [FILE ..]"

    def help(self):
        return f"{self.usage()}\n\n{self.does}\n{ARGUMENTS}{HELP}{STATUSES}"

    def files(self, names, output):
        """For each file the name that messages give it, and its blocks."""
        for name in names:
            if name == "-":
                yield "standard input", self.standard_input(output)
            else:
                yield name, named_file(name, output)

    def standard_input(self, output):
        if sys.stdin is None:
            raise Ended(FAILED, "standard input can't be read: it is closed, or a directory")
        if os.isatty(STDIN):
            self.say(f"waiting for {self.waits_for} from the terminal (Ctrl-D ends it, {self.name} --help tells more)")
        yield from blocks(STDIN, "standard input", output)

    def say(self, sentence):
        # With standard error closed or full there is nobody left to tell.
        with suppress(OSError):
            write_all(STDERR, f"{self.name}: {sentence}.\n".encode(errors="surrogateescape"))


def version():
    file = os.path.join(TOP, "VERSION")
    try:
        with open(file, encoding="ascii") as opened:
            return opened.read().strip()
    except OSError as failed:
        raise unread(file, failed)


# Reading


def named_file(name, output):
    try:
        opened = os.open(name, os.O_RDONLY)
    except OSError as failed:
        raise unread(name, failed)
    try:
        yield from blocks(opened, name, output)
    finally:
        os.close(opened)


def blocks(opened, name, output):
    """What can be read at once, until the end; before each reading all that is ready is written."""
    try:
        while block := read_some(opened, output):
            yield block
    except OSError as failed:
        raise unread(name, failed)


def read_some(opened, output):
    output.flush()
    while True:
        try:
            return os.read(opened, BLOCK)
        except BlockingIOError:
            select.select([opened], [], [])


def unread(name, failed):
    return Ended(FAILED, f"{name} can't be read: {failed.strerror}")


# Writing


class Output:
    """Standard output, with what is ready but not yet written."""

    def __init__(self):
        self.ready = []
        self.size = 0

    def put(self, piece):
        self.ready.append(piece)
        self.size += len(piece)
        if self.size >= BLOCK:
            self.flush()

    def flush(self):
        together = b"".join(self.ready)
        self.ready.clear()
        self.size = 0
        if sys.stdout is None:
            raise Ended(FAILED, "standard output can't be written: it is closed")
        try:
            write_all(STDOUT, together)
        except OSError as failed:
            raise Ended(FAILED, f"standard output can't be written: {failed.strerror}")


def write_all(opened, data):
    """Goes on after a write that takes only a part, and waits where the other end takes nothing at the moment."""
    rest = memoryview(data)
    while rest:
        try:
            rest = rest[os.write(opened, rest) :]
        except BlockingIOError:
            select.select([], [opened], [])


# The two commands


def pack_files(files):
    """Lines are a file's own: they are counted from its beginning, and its end ends the last."""
    for name, text in files:
        try:
            yield from packed(text)
        except Unreadable as refused:
            raise Ended(UNREADABLE, f"{name}, line {refused.line}: {refused.sentence}")


def unpack_files(files):
    """A record may begin in one file and end in the next."""
    for lines in unpacked(block for _, stream in files for block in stream):
        yield lines.encode()


PACK_DOES = """\
Packs readable lines into a record stream, written to standard output. At an unreadable line it stops, with a sentence that names the file
and the line; the records of the lines before it have then been written.
"""
UNPACK_DOES = "Writes a record stream as readable lines, to standard output. Any bytes are taken; pack makes the same of the lines.\n"
COMMANDS = {
    "pack": Command("pack", PACK_DOES, "lines", pack_files),
    "unpack": Command("unpack", UNPACK_DOES, "a record stream", unpack_files),
}
