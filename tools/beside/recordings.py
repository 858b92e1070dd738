"""The files of `run`: stored quads and recorded streams, as items with the lines on which they stand."""
from collections import namedtuple

import model
from term_model import Literal, XSD

from .inputs import file_of
from .refusals import NUMBERS, OfLine

TIME = b"http://www.w3.org/ns/prov#generatedAtTime"
# the stream, its time, the triples and their lines, and of the time line the file, the line, and whether its time is a number
Item = namedtuple("Item", "stream time graph lines file line is_number")
Quad = namedtuple("Quad", "fact line")
# a line that is refused, and how the program tells it
RefusedLine = namedtuple("RefusedLine", "told line")


class Lines:
    """The statements of a file, and its lines that are none, in order. It is read once."""

    def __init__(self, file):
        self.file, self.refused = file, []

    def statements(self):
        """The number, the line and the terms of each line that is a statement."""
        for number, raw in enumerate(file_of(self.file).split(b"\n"), 1):
            line = raw[:-1] if raw.endswith(b"\r") else raw
            try:
                terms = model.statement(line)
            except model.BadLine as wrong:
                self.refuse(number, line, f"{NUMBERS[wrong.name]} {wrong.name} column={wrong.column}")
                continue
            if terms:
                yield number, line, terms

    def refuse(self, number, line, why):
        self.refused.append(RefusedLine(OfLine(self.file, number, why), line))


def time_in(terms):
    """The time that a time line says; None where the statement is none."""
    if len(terms) != 3 or getattr(terms[1], "name", None) != TIME or not isinstance(terms[2], Literal):
        return None
    if terms[2].datatype == XSD + b"integer":
        return model.time_of(terms[2].lexical) if terms[2].lexical.isdigit() else None
    if terms[2].datatype == XSD + b"dateTime":
        return model.time_of(terms[2].lexical) if not terms[2].lexical.isdigit() else None
    return None


class Recording(Lines):
    """A recorded stream: each of its items is a time line, and behind it the quads of the graph that this names."""

    def __init__(self, stream, file):
        super().__init__(file)
        self.stream, self.items, name = stream, [], None
        for number, line, terms in self.statements():
            time = time_in(terms)
            if time is not None:
                self.items.append(Item(stream, time, [], [], file, number, terms[2].datatype == XSD + b"integer"))
                name = terms[0]
            elif name is not None and terms[3:] == (name,):
                self.items[-1].graph.append(terms[:3])
                self.items[-1].lines.append(number)
            else:
                self.refuse(number, line, "6 NoTimeLine")


class Store(Lines):
    """What is stored before: the quads of a file."""

    def __init__(self, file):
        super().__init__(file)
        self.quads = [Quad(model.stored_fact(terms[:3], *terms[3:]), number) for number, _, terms in self.statements()]


def merged(recordings):
    """The items of all recordings, by time, then in the order of the words and of the lines."""
    return sorted((item for recording in recordings for item in recording.items), key=lambda item: item.time)


def recordings_of(streams):
    return [Recording(*stream) for stream in streams]
