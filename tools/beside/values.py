"""What values the files or the log have, by where they stand and by their predicate: how many, and of which sorts."""
from collections import namedtuple

from number_model import number_of
from term_model import XSD_STRING, Blank, Iri, Literal, Tagged

from .exactness import DATES, DOUBLES

# so many of the values are of the wanted sorts; of these the most frequent sort, and the place of its first
Found = namedtuple("Found", "many total sort first")
SORTS = {name.encode(): sort for name, sort in {**DOUBLES, **DATES}.items()}
# the sorts of values that are no numbers at all
UNLIKE = ("string", "IRI", "text with a tag", "blank node", "literal without a number")


def sort_of(term):
    """What a value is that is no exact number; None of one that is."""
    if isinstance(term, Literal) and term.datatype != XSD_STRING:
        return SORTS.get(term.datatype) or (None if number_of(term) else "literal without a number")
    return {Literal: "string", Iri: "IRI", Tagged: "text with a tag", Blank: "blank node"}[type(term)]


class Count:
    """How many values there are, and of each sort how many, with the place of the first. That of exact numbers is None."""

    def __init__(self):
        self.total, self.sorts = 0, {}

    def add(self, term, place):
        self.total += 1
        sort = sort_of(term)
        many, first = self.sorts.get(sort, (0, place))
        self.sorts[sort] = (many + 1, first)


class Values:
    """All values of the items and of what is stored. A place is a stream, the default graph, or a graph of a name."""

    def __init__(self):
        self.counts = {}

    def add(self, spot, predicate, term, place):
        self.counts.setdefault((spot, predicate), Count()).add(term, place)

    def of(self, spot, predicate, sorts_wanted):
        """What of these sorts stands at a place of a query, or None.

        That is at the predicate, without one at any, and in `any` in each graph of a name.
        """
        wanted, wanted_name = key_of(spot), predicate and Iri(predicate.encode())
        found = [
            count for (there, name), count in self.counts.items()
            if wanted in (there, (there[0].replace("named", "any"),)) and wanted_name in (None, name)
        ]
        sorts = [
            (many, sort, first) for count in found for sort, (many, first) in count.sorts.items() if sort in sorts_wanted
        ]
        if not sorts:
            return None
        _, sort, first = max(sorts, key=lambda one: one[0])
        return Found(sum(many for many, _, _ in sorts), sum(count.total for count in found), sort, first)


def key_of(spot):
    """The place as facts have it."""
    if spot[0] == "stream":
        return "stream", spot[1] and spot[1].encode()
    return ("named", Iri(spot[1].encode())) if spot[0] == "named" else spot
