"""What the program has written: its refusals and overfull reports. Reports, as tables or as JSON, are passed over."""
import os
import re
from collections import namedtuple

from .inputs import complain
from .places import quoted

# of a block by its number, of a query's file, or of a line of a file; `text` is what stands behind the place
OfBlock = namedtuple("OfBlock", "block text")
OfQuery = namedtuple("OfQuery", "text")
OfLine = namedtuple("OfLine", "file line text")
Overfull = namedtuple("Overfull", "name time")
# `check` has found no fault
Good = namedtuple("Good", "")

# each refusal with its details, where `#` is a number
DETAILS = {
    "1 BadStatement": "column=#", "2 RelativeIri": "column=#", "3 BadDirective": "", "4 BadBody": "line=#", "5 BlockTooLarge": "",
    "6 NoTimeLine": "", "7 BadToken": "at=#", "8 Syntax": "at=#", "9 LeftOut": "at=# what=[^ ]+",
    "10 Limit": "what=(?:text|nesting|windows|span|variables|patterns|operators|elements|rows)", "11 GraphShape": "at=#",
    "12 ExistsShape": "at=#", "13 Scope": "variable=[^ ]+", "14 PolicyMix": "", "15 Late": "time=# next=#", "16 NameTaken": "",
    "17 NoQuery": "", "18 QueriesFull": "", "19 HeldFull": "held=#", "20 StoreFull": "quads=#", "21 ItemTooLarge": "triples=#",
    "23 SlackTuple": "", "25 StartOverfull": "",
}
# the refusals of a line that is no statement
NUMBERS = {"BadStatement": 1, "RelativeIri": 2}
NUMBER = "[0-9]{1,18}"
FORMS = "|".join(f"{kind} {details}".rstrip() for kind, details in DETAILS.items()).replace("#", NUMBER)
# no line that matters is longer; a name of a file may have some thousand bytes
MOST_LINE = 1 << 16


def written(output):
    """Each refusal and overfull report of an output, in order. A line that only begins so is passed over, and told of."""
    line = output.readline(MOST_LINE)
    while line:
        if line == b"ok\n":
            yield Good()
        if line.startswith((b"# refused ", b"# overfull ")):
            found = told(line)
            if found:
                yield found
            else:
                complain("explain", f"a line is no refusal, though it begins as one, as where it is cut: {quoted(line)}")
        while not line.endswith(b"\n") and len(line) == MOST_LINE:
            line = output.readline(MOST_LINE)
        line = output.readline(MOST_LINE)


def told(line):
    """What the line says, or None."""
    text = os.fsdecode(line)
    found = re.fullmatch(rf"# refused block ({NUMBER}) ({FORMS})\n", text)
    if found:
        return OfBlock(int(found[1]), found[2])
    found = re.fullmatch(rf"# refused query ({FORMS})\n", text)
    if found:
        return OfQuery(found[1])
    found = re.fullmatch(rf"# refused file (.*) line ({NUMBER}) ({FORMS})\n", text, re.S)
    if found:
        return OfLine(found[1], int(found[2]), found[3])
    found = re.fullmatch(rf"# overfull ([A-Za-z0-9_-]{{1,64}}) ({NUMBER})\n", text)
    return Overfull(found[1], int(found[2])) if found else None


def kind_of(text):
    """The number and the name of a refusal."""
    return " ".join(text.split(" ")[:2])


def number_of(text):
    return int(text.split(" ")[0])


def details_of(text):
    """The details of a refusal, by their names; numbers as numbers."""
    pairs = (piece.partition("=") for piece in text.split(" ")[2:])
    return {name: int(value) if re.fullmatch(NUMBER, value) else value for name, _, value in pairs}
