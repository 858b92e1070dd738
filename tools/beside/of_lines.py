"""What is told of a line that is no statement: the column, and which part should stand there."""
import model

from . import differing, forms
from .findings import Finding
from .inputs import file_of
from .marks import MARK, of_mark
from .pages import paragraph
from .places import Place, with_caret
from .refusals import NUMBERS, details_of, kind_of

# what could stand at a place of a statement, by what makes it one that is whole
PARTS = [
    (b"", "the end of the line"), (b".", "a graph or a dot"), (b"<a:a> .", "an object: an IRI, a blank node or a literal"),
    (b"<a:a> <a:a> .", "a predicate: an IRI"), (b"<a:a> <a:a> <a:a> .", "a subject: an IRI or a blank node"),
]


def is_statement(line):
    try:
        return model.statement(line) is not None
    except model.BadLine as why:
        return why.name == "RelativeIri"


def said_of_line(line, name, column):
    """What is wrong at the column of a line that is no statement."""
    if name == "RelativeIri":
        return "this IRI isn't absolute"
    part = next((part for rest, part in PARTS if is_statement(line[:column - 1] + b" " + rest)), "no part of a statement")
    return f"here should stand {part}"


# ---- lines of files


class Lines:
    """The lines of the files that are named, each file read once."""

    def __init__(self):
        self.files = {}

    def line(self, file, number):
        """A line without its end, or an empty one where the file has no such line."""
        if file not in self.files:
            self.files[file] = file_of(file).split(b"\n")
        lines = self.files[file]
        line = lines[number - 1] if 0 < number <= len(lines) else b""
        return line[:-1] if line.endswith(b"\r") else line


    def line_of(self, words, entry):
        """The line of which the program tells a refusal; an empty one where the words name no such file."""
        is_named = entry.file in files_of(words)
        return self.line(entry.file, entry.line) if is_named else b""


def files_of(words):
    return [words.store, *(stream.file for stream in words.streams)]


def of_file_line(words, entry, lines):
    """A refused line of a file of `run`."""
    place = Place(entry.file, entry.line, details_of(entry.text).get("column", 1))
    if entry.file not in files_of(words):
        raise differing.told(place, entry.text, "the words name no such file")
    line = lines.line_of(words, entry)
    refusal = refusal_of(line)
    if refusal != entry.text:
        raise differing.from_model(place, entry.text, refusal)
    return of_line(entry, line)


def of_line(entry, line):
    """The finding of a line that is refused."""
    place, kind = Place(entry.file, entry.line, details_of(entry.text).get("column", 1)), kind_of(entry.text)
    if line.startswith(MARK, place.column - 1):
        return of_mark(place, kind, line)
    said, write, page = forms.as_time_line(line) if kind == "6 NoTimeLine" else of_statement(line, kind, place.column)
    return Finding(place, kind, said, write, page, with_caret(line, place.column))


def of_statement(line, kind, column):
    """What is so of a line that is no statement at the column, what to write, and the page."""
    page, sentence = paragraph(kind)
    return forms.as_turtle(line, column) or forms.Meant(said_of_line(line, kind.split(" ")[1], column), sentence, page)


def refusal_of(line):
    """What the model says of a line that is refused: a statement can only be one that stands at the wrong place."""
    try:
        model.statement(line)
        return "6 NoTimeLine"
    except model.BadLine as wrong:
        return f"{NUMBERS[wrong.name]} {wrong.name} column={wrong.column}"
