"""The lines of an input that comes in chunks. A line that is too long isn't kept."""
from typing import NamedTuple, Optional

MOST_LINE = 16 << 20
# of a line that is too long this much is kept, to be shown
FRONT = 1000
TOO_LONG = "it is longer than 16 MiB"
CUT = "it is cut: the input ended before a line feed"


class Line(NamedTuple):
    """A line without its line feed; with a fault it isn't to be read, and of a long one only the front is there."""

    content: bytes
    fault: Optional[str] = None


class Splitter:
    """Makes lines of chunks, and keeps what belongs to the line that hasn't ended."""

    def __init__(self):
        self.pieces, self.size = [], 0

    def split(self, chunk):
        """The lines that end in this chunk."""
        *ended, rest = chunk.split(b"\n")
        for piece in ended:
            self.add(piece)
            yield self.line()
        self.add(rest)

    def end(self):
        """What is left where the input has ended."""
        if self.size:
            line = self.line()
            yield line._replace(fault=line.fault or CUT)

    def add(self, piece):
        self.size += len(piece)
        self.pieces.append(piece)
        if self.size > MOST_LINE:
            self.pieces = [b"".join(self.pieces)[:FRONT]]

    def line(self):
        content, fault = b"".join(self.pieces), TOO_LONG if self.size > MOST_LINE else None
        self.pieces, self.size = [], 0
        return Line(content, fault)
