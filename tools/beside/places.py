"""Where something stands: a file, a line, a column, and that line with a caret. Both count from 1, columns count bytes."""
import unicodedata
from collections import namedtuple

# how much of a line, and of a piece of it, is shown
MOST_SHOWN, MOST_QUOTED = 120, 40

Place = namedtuple("Place", "file line column")


class Text:
    """Bytes that stand in a file, from the beginning of a line on: a whole file, or the body of a block of a log."""

    def __init__(self, file, content, first_line=1):
        self.file, self.content, self.first_line = file, content, first_line

    def start_of_line(self, at):
        return self.content.rfind(b"\n", 0, at) + 1

    def place(self, at):
        line = self.first_line + self.content.count(b"\n", 0, at)
        return Place(self.file, line, at - self.start_of_line(at) + 1)

    def line(self, at):
        """The bytes of the line that holds this byte."""
        end = self.content.find(b"\n", at)
        return self.content[self.start_of_line(at):len(self.content) if end < 0 else end]

    def shown(self, at):
        return with_caret(self.line(at), at - self.start_of_line(at) + 1)


def printable(text):
    """The text with a sign in the place of each character that moves a cursor or a line."""
    return "".join(c if c == "\t" or c.isprintable() else "\ufffd" for c in text)


def quoted(piece):
    """A piece of a text in backquotes, cut where it is long."""
    return cut(piece, MOST_QUOTED)


def cut(piece, most):
    """A piece of a text in backquotes, so many characters of it at most."""
    text = printable(piece.decode("utf-8", "replace") if isinstance(piece, bytes) else piece).replace("\t", " ").strip("\ufffd")
    return f"`{text if len(text) <= most else text[:most] + '..'}`"


def width(text):
    return sum(2 if unicodedata.east_asian_width(c) in "WF" else 1 for c in text)


def with_caret(line, column):
    """Two lines: this one, and a caret below the byte at the column. Of a long line a part is shown, of an empty one none."""
    if not line:
        return []
    before, behind = (printable(part.decode("utf-8", "replace")) for part in (line[:column - 1], line[column - 1:]))
    if len(before) + len(behind) > MOST_SHOWN:
        before, behind = shortened(before, behind)
    gap = "".join("\t" if c == "\t" else " " * width(c) for c in before)
    return [f"    {before}{behind}".rstrip(), f"    {gap}^"]


def shortened(before, behind):
    if len(before) > MOST_SHOWN // 2:
        before = ".. " + before[len(before) - MOST_SHOWN // 2:]
    rest = max(MOST_SHOWN - len(before), MOST_SHOWN // 3)
    return before, behind if len(behind) <= rest else behind[:rest] + " .."
