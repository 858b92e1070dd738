"""Names and values for which a query looks where nothing has them: mistyped, or of another vocabulary."""
import difflib
import re

from query_model import RDF_TYPE
from term_model import Iri, printed

from .findings import Finding
from .pages import TOOLS, page_of
from .patterns import OBJECT, PREDICATE, SUBJECT
from .places import cut

# of longer names the front is compared
MOST_COMPARED = 200
# what is less like the name than this is hardly meant, and so many others are told
LEAST_LIKE, MOST_OTHERS = 0.5, 4


def unseen(watched, course):
    """Each constant of a triple that nothing has at its place, where something else stands there."""
    told = set()
    for constant in watched.sightings.constants:
        slot, there = constant.slots[0], watched.sightings.at(constant)
        is_seen = watched.sightings.is_seen(constant) or is_refused(slot.spot, course.refused)
        if is_seen or not there or (constant.term, slot) in told:
            continue
        told.add((constant.term, slot))
        yield of_unseen(watched.text.place(constant.start), constant.term, slot, there)


def is_refused(spot, refused):
    """Whether what was refused may have had it."""
    return refused.has_unread(spot[1]) if spot[0] == "stream" else refused.stores


def of_unseen(place, term, slot, there):
    near = nearest(term, there)
    also = others(term, near, there)
    said = (
        f"{of_spot(slot.spot)} has {as_part(slot, term)}; the nearest is {whole(near)}, "
        f"in {there[near]} {'triple' if there[near] == 1 else 'triples'}{also}"
    )
    write = "write the one that is meant" if also else f"write {whole(near)}, if that is meant"
    return Finding(place, "unseen", said, write, page_of(TOOLS, "unseen"))


def others(term, near, there):
    """Where the nearest term isn't near, the others that stand there, those that do most often first."""
    rest = [other for other, _ in there.most_common() if other != near]
    if not rest or ratio(own_name(term), own_name(near)) >= LEAST_LIKE:
        return ""
    told = ", ".join(map(whole, rest[:MOST_OTHERS]))
    return f"; there {'is' if len(rest) == 1 else 'are'} {told}{' and others' if len(rest) > MOST_OTHERS else ''} too"


def of_spot(spot):
    """Where the triple is looked for, as what has none of something."""
    if spot[0] == "stream":
        return f"no item of the stream {whole(Iri(spot[1]))}"
    if spot[0] == "default":
        return "nothing that is stored in the default graph"
    return f"nothing that is stored in {'a graph of a name' if spot[0] == 'any' else f'the graph {whole(spot[1])}'}"


def as_part(slot, term):
    """The term as what stands at this part of a triple."""
    if slot.part == PREDICATE:
        return f"the predicate {whole(term)}"
    if slot.part == OBJECT and slot.predicate == Iri(RDF_TYPE.encode()):
        return f"the class {whole(term)} behind `a`"
    if slot.predicate is None:
        return f"{whole(term)} as {'a subject' if slot.part == SUBJECT else 'an object'}"
    return f"{whole(term)} {'before' if slot.part == SUBJECT else 'behind'} {whole(slot.predicate)}"


def whole(term):
    """A term in backquotes, as it may be written in a query."""
    return cut(printed(term), MOST_COMPARED)


def nearest(term, there):
    """The most similar term, of equally similar ones that which stands there most often."""
    return max(there, key=lambda other: (likeness(term, other), there[other], printed(other)))


def likeness(term, other):
    """How similar two terms are: what they are called within their namespaces counts as much as the whole of them."""
    return ratio(own_name(term), own_name(other)) + ratio(shown(term), shown(other))


def shown(term):
    return printed(term).decode("utf-8", "replace")[:MOST_COMPARED].lower()


def own_name(term):
    """What stands behind the namespace of an IRI, and the text of a literal."""
    if isinstance(term, Iri):
        return re.split("[/#:]", shown(term).rstrip(">/#"))[-1]
    return getattr(term, "lexical", b"").decode("utf-8", "replace")[:MOST_COMPARED].lower()


def ratio(left, right):
    return difflib.SequenceMatcher(None, left, right).ratio()
