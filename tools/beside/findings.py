"""What a tool has found, and how it is written: as a line, with the line of the text that it speaks of, or as JSON."""
import json
from collections import namedtuple

# `line_shown` are the lines that show the place, and `page` is where a document says more
Finding = namedtuple("Finding", "place kind said write page line_shown", defaults=[()])


def as_line(finding):
    """`FILE:LINE:COLUMN: NAME: what is so, and what to write`."""
    file, line, column = finding.place
    return f"{file}:{line}:{column}: {finding.kind}: {'; '.join(filter(None, [finding.said, *finding.write.splitlines()]))}\n"


def as_paragraph(finding):
    """The place with what is so, the line with a caret, and below it what to write, and the page."""
    file, line, column = finding.place
    behind = [f"    {text}" for text in (*finding.write.split("\n"), finding.page) if text]
    return "\n".join([f"{file}:{line}:{column}: {finding.kind}: {finding.said}", *finding.line_shown, *behind]) + "\n"


def as_json(finding):
    file, line, column = finding.place
    said = {
        "file": file, "line": line, "column": column, "kind": finding.kind, "is": finding.said,
        "write": finding.write.replace("\n", "; "), "page": finding.page,
    }
    return json.dumps(said) + "\n"
