"""The blocks of a log, with the lines of the log on which they stand."""
from collections import namedtuple

import model

from .inputs import guarded
from .places import Place, Text, with_caret

# the number from 1, the lines, and the event as the model reads it, or why it refuses the block
Block = namedtuple("Block", "file number lines event why")


def blocks_of(log, file):
    """Each block of a log."""
    for number, lines in enumerate(model.groups(guarded(model.lines_of(log), file)), 1):
        try:
            yield Block(file, number, lines, model.event_of(lines), None)
        except model.BadBlock as why:
            yield Block(file, number, lines, None, str(why))


DIRECTIVES = (b"@register", b"@cancel", b"@item", b"@tick", b"@insert", b"@delete")


def is_directive(line):
    """Whether a line has the word of a directive at its beginning, whatever stands behind it."""
    return directive_of(line)[0] is not None


def directive_of(line):
    """The directive of a line and the stream that it names, as far as it can be read; else None."""
    head, *fields = line.split() or [b""]
    if head not in DIRECTIVES or not line.startswith(head):
        return None, None
    stream = model.iri(fields[0], 0) if head == b"@item" and fields else None
    return head, stream[0] if stream and stream[1] == len(fields[0]) else None


def place_of(block):
    return Place(block.file, block.lines[0].number, 1)


def shown(block, line_number=None, column=1):
    """A line of the block, its first one or that of the number, with a caret."""
    line = next((line for line in block.lines if line.number == line_number), block.lines[0])
    return with_caret(line.text, column)


def text_of(block):
    """The query's text that the block registers, with the lines of the log on which it stands.

    What stands behind it is its `@end`, at which a text ends that isn't finished.
    """
    end = [line.text for line in block.lines[-1:] if model.is_end(line)]
    body = block.lines[1:len(block.lines) - len(end)]
    return Text(block.file, b"".join(line.text + b"\n" for line in body) + b"".join(end), block.lines[0].number + 1)


def query_text(block):
    """The bytes of the query's text alone."""
    return block.event[2]


def column_of_last_field(block):
    line = block.lines[0].text
    return len(line.rstrip(b" \t")) - len(line.split()[-1]) + 1


def column_of_field(block):
    """The column of the first field of the directive."""
    line = block.lines[0].text
    head = len(line.split()[0])
    return len(line) - len(line[head:].lstrip(b" \t")) + 1
