"""What a line that is refused was meant to be: Turtle, a time line, an IRI or a date that lacks something, a quad in an item."""
import re
from collections import namedtuple

import model
from term_model import XSD, Iri, Literal

from .pages import EVENTS, RECIPES, page_of
from .places import cut
from .recordings import TIME

# what is so, what to write in its place, and the page that says more
Meant = namedtuple("Meant", "said write page")
MOST_WRITTEN = 400

PREFIXED = re.compile(rb"(?!_:)[A-Za-z0-9_.-]*:[^\s<>\"{}|^`\\;,]*")
ADDRESS = re.compile(rb"[A-Za-z][A-Za-z0-9+.-]*://[^\s<>\"{}|^`\\]+")
DATE = re.compile(rb"([0-9]{4}-[0-9]{2}-[0-9]{2})(?:[T ]([0-9]{2}:[0-9]{2})(:[0-9]{2}(?:\.[0-9]+)?)?)?(Z|[+-][0-9]{2}:[0-9]{2})?")


def written(line):
    return cut(line, MOST_WRITTEN)


# ---- Turtle


def as_turtle(line, column):
    """What a line means that has a form of Turtle at the column, or None."""
    front, piece = line.lstrip(b" \t"), line[column - 1:]
    address = ADDRESS.match(piece)
    if address:
        said = f"{written(address[0])} stands without brackets"
        return Meant(said, f"write {written(b'<%s>' % address[0])}", page_of(EVENTS, "Statements"))
    sign = re.match(rb"(?i)(@?prefix|@?base)(?=[ \t])", front)
    sign = sign or re.match(rb"[;,\[(]|a(?=[ \t<])", piece) or PREFIXED.match(piece)
    if not sign:
        return None
    said = f"{written(sign[0])} is Turtle, and here each line is to be a whole statement, with IRIs in `< >`"
    write = "make it N-Quads by the recipe `turtle`, `examples/recipes/turtle/script`"
    return Meant(said, write, page_of(RECIPES, "Turtle and RDF/XML"))


# ---- time lines


def as_time_line(line):
    """What a statement means that is neither a time line nor a quad of the graph that is open."""
    terms, page = model.statement(line), page_of(EVENTS, "Recorded streams")
    if terms[1] == Iri(TIME):
        return of_time(terms, page)
    if len(terms) == 3:
        said = "this statement names no graph, and no time line before it says when it came"
        write = f"write a graph behind it, and before it the time line of this graph: {written(time_line(b'_:g1'))}"
        return Meant(said, f"{write}, with its time", page)
    graph = name_of(terms[3])
    said = f"the last time line before this quad, if there is one, doesn't name its graph {written(graph)}"
    return Meant(said, f"write its time line before it: {written(time_line(graph))}, with its time", page)


def name_of(term):
    return b"<%s>" % term.name if isinstance(term, Iri) else b"_:%s" % term.label


def time_line(graph, time=b"2026-01-01T00:00:00Z", kind=b"dateTime"):
    return b'%s <%s> "%s"^^<%s%s> .' % (graph, TIME, time, XSD, kind)


def of_time(terms, page):
    """A time line whose time isn't one, or that has a graph."""
    lexical = terms[2].lexical if isinstance(terms[2], Literal) else b""
    time, zone = mended_time(lexical)
    if time is None:
        write = f"write milliseconds, or a date with its zone: {written(time_line(name_of(terms[0])))}"
        return Meant("this would be a time line, and it has no time", write, page)
    what = "has a graph" if len(terms) == 4 else "has no zone" if time != lexical else "has another datatype"
    line = time_line(name_of(terms[0]), time, b"integer" if time.isdigit() else b"dateTime")
    return Meant(f"this would be a time line, and it {what}", f"write {written(line)}{zone}", page)


def mended_time(text):
    """The time that a text says, with what is wanting, and what is to be known of it; None where it says none."""
    found = DATE.fullmatch(text)
    whole = b"%sT%s%s%s" % (found[1], found[2] or b"00:00", found[3] or b":00", found[4] or b"Z") if found else text
    zone = ", if its zone is UTC" if found and not found[4] else ""
    return (whole, zone) if model.time_of(whole) is not None else (None, "")


# ---- directives


def as_directive(line):
    """What a line that is no directive means, or None."""
    head, *fields = line.split() or [b""]
    if head == b"@tick":
        return of_fields(head, [], fields)
    return of_fields(head, fields[:1], fields[1:]) if head == b"@item" and fields else None


def of_fields(head, names, times):
    """An `@item` or `@tick` whose stream lacks its brackets or whose time lacks something."""
    stream = [name if name.startswith(b"<") else b"<%s>" % name.strip(b"\"'>") for name in names]
    time, zone = mended_time(b" ".join(times))
    line = b" ".join([head, *stream, time or b""])
    if time is None or not is_directive(line):
        return None
    faults = ["the stream stands without brackets"] * (stream != names) + ["the time isn't whole"] * ([time] != times)
    return Meant(" and ".join(faults), f"write {written(line)}{zone}", page_of(EVENTS, "Blocks")) if faults else None


def is_directive(line):
    try:
        return bool(model.directive(line))
    except model.BadBlock:
        return False


# ---- a quad in an item


def without_graph(line):
    """The statement of a quad, without its graph."""
    at = 0
    for reader in (model.node, model.iri_term, model.object_term):
        _, at = reader(line, model.behind_blanks(line, at))
    return line[:at] + b" ."
