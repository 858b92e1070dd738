"""What follows from a refusal: what a refused block would have read, fed, stored or moved is no mistake of its own."""
from .blocks import directive_of, is_directive


class Aftermath:
    """What the refused blocks and lines of a log or a run would have done. A block of which nothing can be read may be any.

    `fed` are the streams of which an item was refused, and `unread` those of which nobody knows what it had.
    """

    def __init__(self):
        self.reads, self.stores, self.moves_time, self.any_stream = False, False, False, False
        self.fed, self.unread = set(), set()

    def note(self, block):
        """Takes a block of a log that has no form, or a text with a fault: where its `@end` is wanting it holds others."""
        for line in block.lines:
            if line is block.lines[0] or is_directive(line.text):
                self.note_directive(line.text)

    def note_directive(self, text):
        head, stream = directive_of(text)
        self.reads |= head in (None, b"@register")
        self.stores |= head in (None, b"@insert")
        self.moves_time |= head in (None, b"@tick")
        if head in (None, b"@item"):
            self.note_stream(stream)

    def note_stream(self, stream):
        """Takes an item that has no form, or a refused line of a file; of None the stream isn't known."""
        self.moves_time, self.any_stream = True, self.any_stream or stream is None
        self.fed.add(stream)
        self.unread.add(stream)

    def feeds(self, stream):
        return self.any_stream or stream in self.fed

    def has_unread(self, stream):
        return self.any_stream or stream in self.unread
