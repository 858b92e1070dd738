"""The triples of a query: where each is looked for, the constants in it, and at which places of facts these are wanted."""
from collections import namedtuple

from query_model import groups_in
from term_model import Iri
from value_model import term_of

from .uses import ends_of, spot_in
from .values import key_of

SUBJECT, PREDICATE, OBJECT = range(3)

# a triple of a query; `spot` says where it is looked for, and `way` is its predicate or its path
Pattern = namedtuple("Pattern", "spot subject way object")
# a place of facts: those of a spot, with this predicate or with any, and which of their three terms
Slot = namedtuple("Slot", "spot predicate part")
# a constant that stands in a pattern, with the byte at which it begins, and the slots of which one must have it
Constant = namedtuple("Constant", "term start slots")


def patterns_of(query, streams=None):
    """All triples of a query; in WINDOW their spot is the stream, or what `streams` says for the window's name."""
    of_window = {clause["name"]: clause["stream"] for clause in query["windows"]} if streams is None else streams
    return patterns_in(query["select"]["body"], ("default",), of_window)


def patterns_in(body, spot, streams):
    for part in body:
        if part[0] == "triple":
            yield Pattern(spot, *part[1:])
        elif part[0] == "sub":
            yield from patterns_in(part[1]["body"], spot, streams)
        for inner in groups_in(part):
            yield from patterns_in(inner, spot_in(part, spot, streams), streams)


def constants_of(pattern):
    """The constants of a pattern: first the predicates of its path, then what stands at its ends."""
    spot = key_of(pattern.spot)
    for name in names_of_way(pattern.way):
        yield Constant(Iri(name.encode()), name.start, (Slot(spot, None, PREDICATE),))
    for node, is_forward in ((pattern.subject, False), (pattern.object, True)):
        if node[0] == "constant":
            slots = tuple(Slot(spot, as_iri(name), OBJECT if is_object else SUBJECT) for name, is_object in ends_of(
                pattern.way, is_forward))
            yield Constant(term_of(node[1]), node[1][1].start, slots)


def names_of_way(way):
    """The predicates that a path names, in the order of the text."""
    kind, inner = way
    if kind == "step":
        return [] if isinstance(inner, tuple) else [inner]
    return [name for one in ([inner] if kind == "inverse" else inner) for name in names_of_way(one)]


def as_iri(name):
    return None if name is None else Iri(name.encode())
