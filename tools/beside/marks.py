"""The byte order mark, which some editors write before a text: it is no part of it, and what is refused behind it follows."""
import model

from . import blocks
from .findings import Finding
from .pages import EVENTS, page_of
from .places import with_caret
from .recordings import time_in

MARK = b"\xef\xbb\xbf"
SAID = "a byte order mark stands here, which no editor shows and which is no part of the text"


def of_mark(place, kind, line):
    """The finding of a mark, at its place in the line."""
    write = rf"take it away: `sed '{place.line}s/\xEF\xBB\xBF//'`"
    if place.column == 1:
        write = rf"take it away: `sed '{place.line}s/^\xEF\xBB\xBF//'`"
    return Finding(place, kind, SAID, write, page_of(EVENTS, "Input that somebody else wrote"), with_caret(line, place.column))


class TornBody:
    """A body whose directive has a mark before it: up to its `@end` each of its lines is a block, and refused."""

    def __init__(self):
        self.is_open = False

    def follows(self, block):
        """Whether the block is refused since it is a line of such a body."""
        first = block.lines[0]
        if first.text.startswith(MARK):
            self.is_open = model.begins_body(first._replace(text=first.text[len(MARK):]))
            return False
        was_open = self.is_open and not blocks.is_directive(first.text)
        self.is_open = was_open and not model.is_end(first)
        return was_open


class TornGraph:
    """A graph of a recording whose time line has a mark before it: none of its quads has a time line then."""

    def __init__(self):
        self.name = None

    def follows(self, entry, line):
        """Whether the line of the file is refused since it is a quad of such a graph."""
        if line.startswith(MARK):
            terms = terms_of(line[len(MARK):])
            self.name = (entry.file, terms[0]) if terms and time_in(terms) is not None else None
            return False
        return self.name is not None and self.name == (entry.file, *(terms_of(line) or ())[3:])


def terms_of(line):
    """The terms of a line that is a statement, else None."""
    try:
        return model.statement(line)
    except model.BadLine:
        return None
