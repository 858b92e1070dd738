"""`tools/part`: a log in, the logs of its parts out, each triple of an item in the part of its subject.

    tools/part N --to DIR [--slack S] < LOG

All else goes to each part, also what no part will take: so all of them have the same blocks on the same lines, and refuse the
same ones. A line of a triple that is in another part is an empty line.
"""
import contextlib
import functools
import hashlib
import os
import re

import model
from term_model import Iri

from .inputs import Unwritable, guarded, opened, told
from .words import WrongWords, named, slack, split

USAGE = "usage: tools/part N --to DIR [--slack S] < LOG"
MOST_PARTS = 256

# statements that are good beyond doubt; what isn't of this form is asked of the model, which is slow
IRI = rb'<[A-Za-z][A-Za-z0-9+.-]*:[^\x00-\x20<>"{}|^`\\\x7f-\xff]*>'
NODE = rb"(?:%s|_:[A-Za-z0-9_]+)" % IRI
LITERAL = rb'"[^"\\\n\r\x7f-\xff]*"(?:\^\^%s|@[A-Za-z]+(?:-[A-Za-z0-9]+)*)?' % IRI
PLAIN = re.compile(rb"[ \t]*(%s)[ \t]+%s[ \t]+(?:%s|%s)[ \t]*\.[ \t]*\r?\n" % (NODE, IRI, NODE, LITERAL))


# ---- subjects


@functools.lru_cache(maxsize=100_000)
def part_of(subject, count):
    """The part of a subject as it is printed, `<..>` or `_:..`: the first eight bytes of its SHA-256, modulo the count."""
    return int.from_bytes(hashlib.sha256(subject).digest()[:8], "big") % count


def subject_of(line):
    """The subject of a statement as it is printed; None of a line that says nothing. BadLine where an item has no such line."""
    plain = PLAIN.fullmatch(line)
    if plain:
        return plain[1]
    terms = model.statement(text_of(line))
    if terms is None:
        return None
    subject, *others = terms
    if len(others) != 2:
        raise model.BadLine("BadStatement", 1)
    return b"<%s>" % subject.name if isinstance(subject, Iri) else b"_:%s" % subject.label


# ---- blocks


def lines_of(log):
    """The lines of a log as they stand there, each with whether a line begins with it: one that is too long comes in pieces."""
    is_front = True
    for raw in iter(lambda: log.readline(model.MOST_BYTES + 2), b""):
        yield raw, is_front
        is_front = raw.endswith(b"\n")


def text_of(raw):
    """A line without what ends it."""
    text = raw[:-1] if raw.endswith(b"\n") else raw
    return text[:-1] if raw.endswith(b"\r\n") else text


def as_line(raw):
    """A line as the model has it, whose number isn't asked for."""
    text = text_of(raw)
    return model.Line(0, text, len(raw), len(raw) - raw.endswith(b"\n") > model.MOST_BYTES)


def parted(log, count):
    """What each part gets of a log, block by block: a list of so many texts, for each block and each line between blocks."""
    lines = lines_of(log)
    for raw, is_front in lines:
        if is_front and model.begins_body(as_line(raw)):
            yield from parted_block(raw, lines, count)
        else:
            yield [raw] * count


def parted_block(directive, lines, count):
    """A block with a body. One that is too large isn't kept: each part has it as it is, and refuses it."""
    held, size = [directive], len(directive)
    for raw, is_front in lines:
        held.append(raw)
        size += len(raw)
        if size > model.MOST_BYTES:
            yield [b"".join(held)] * count
            held = []
        if is_front and model.is_end(as_line(raw)):
            break
    if held:
        yield texts_of_block(held, count)


def texts_of_block(lines, count):
    """What each part gets of a block; all of it where it isn't an item that each part takes."""
    homes = homes_of(lines, count)
    if homes is None:
        return [b"".join(lines)] * count
    return [b"".join(line if home in (None, part) else b"\n" for line, home in zip(lines, homes)) for part in range(count)]


def homes_of(lines, count):
    """The part of each line of an item, None for a line that all parts get; None where a line is no statement of an item."""
    is_item = re.split(rb"[ \t]", text_of(lines[0]), maxsplit=1)[0] == b"@item"
    if not is_item or not model.is_end(as_line(lines[-1])):
        return None
    try:
        subjects = [subject_of(line) for line in lines[1:-1]]
    except model.BadLine:
        return None
    return [None, *(None if subject is None else part_of(subject, count) for subject in subjects), None]


# ---- the logs of the parts


def parting(words):
    """Writes the logs of the parts, and gives the status. The slack is the parts' own: each of them has each item."""
    values, options = split(words, ("--to", "--slack"))
    if len(values) != 1 or not re.fullmatch("0*[1-9][0-9]{0,2}", values[0]) or int(values[0]) > MOST_PARTS:
        raise WrongWords
    folder, _ = named(options.get("--to", "")), slack(options.get("--slack", "0"))
    with contextlib.ExitStack() as stack, opened(None) as log:
        outs = [stack.enter_context(Out(f"{folder}/{part}")) for part in range(int(values[0]))]
        for texts in guarded(parted(log, len(outs)), "standard input"):
            for out, text in zip(outs, texts):
                out.write(text)
    return 0


class Out:
    """The log of a part: a file, or a named pipe, which is opened once somebody reads it. What is written is there at once."""

    def __init__(self, path):
        self.path = path
        with self.told():
            os.makedirs(os.path.dirname(path), exist_ok=True)
            self.file = open(path, "wb", buffering=0)

    def __enter__(self):
        return self

    def __exit__(self, *why):
        self.file.close()

    @contextlib.contextmanager
    def told(self):
        try:
            yield
        except (OSError, ValueError) as error:
            raise Unwritable(f"{self.path}: {told(error)}") from None

    def write(self, text):
        with self.told():
            rest = memoryview(text)
            while rest:
                rest = rest[self.file.write(rest):]
