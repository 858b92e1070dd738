"""Terms of reports as cells: short in the cell, whole in its title. No text that is kept is longer than a limit."""
import hashlib
import re
from typing import NamedTuple

MOST_SIGNS = 500
XSD = "http://www.w3.org/2001/XMLSchema#"
NUMERIC = {XSD + name for name in (
    "integer", "decimal", "double", "float", "int", "long", "short", "byte", "nonNegativeInteger", "positiveInteger",
    "nonPositiveInteger", "negativeInteger", "unsignedInt", "unsignedLong", "unsignedShort", "unsignedByte",
)}
NUMBER = re.compile(r"[+-]?([0-9]+(\.[0-9]*)?|\.[0-9]+)([eE][+-]?[0-9]+)?")
# a longer number is drawn at the nearest double; what is drawn is no wider than a line of the screen
MOST_DIGITS = 40


class Cell(NamedTuple):
    """What stands in a cell, the whole of it, and whether it is a number."""

    text: str
    whole: str
    is_number: bool


def cell(term):
    """The cell of a term; None for an unbound variable."""
    return None if term is None else Cell(cut(short(term)), cut(whole(term)), is_number(term))


def cut(text):
    return text if len(text) <= MOST_SIGNS else f"{text[:MOST_SIGNS]}… (cut: {len(text)} signs)"


def short(term):
    """The last part of an IRI, a blank node's label, and a literal's text as it is."""
    value = term["value"]
    if term["type"] == "uri":
        front = value.rstrip("/#:")
        return front[max(map(front.rfind, "/#:")) + 1:] or value
    return f"_:{value}" if term["type"] == "bnode" else value


def whole(term):
    """An IRI as it is; a literal in quotation marks, with its tag or datatype."""
    kind, value = term["type"], term["value"]
    if kind != "literal":
        return value if kind == "uri" else f"_:{value}"
    if "xml:lang" in term:
        return f'"{value}"@{term["xml:lang"]}'
    return f'"{value}"^^<{term["datatype"]}>' if "datatype" in term else f'"{value}"'


def is_number(term):
    return term["type"] == "literal" and term.get("datatype") in NUMERIC


def point(term):
    """The number at which a term is drawn, as a text; None where there is none, as for INF."""
    if term is None or not is_number(term) or not NUMBER.fullmatch(term["value"]):
        return None
    text = term["value"] if len(term["value"]) <= MOST_DIGITS else repr(float(term["value"]))
    return text if abs(float(text)) != float("inf") else None


def key(term):
    """A text by which terms differ, of no more than a limit; an unbound variable has one too."""
    if term is None:
        return ""
    text = f"{term['type']} {whole(term)}"
    if len(text) <= MOST_SIGNS:
        return text
    return hashlib.sha256(text.encode("utf-8", "surrogatepass")).hexdigest()
