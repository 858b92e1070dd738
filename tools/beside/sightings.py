"""What stands in the triples that come or are stored while a query lives, at the places at which it asks for a constant."""
from collections import Counter

from .patterns import constants_of, patterns_of

# so many different terms of a place are kept, beside those that are asked for
MOST_TERMS = 4096


class Sightings:
    """How often each term stands at a slot that a query asks for."""

    def __init__(self, query):
        self.constants = [constant for pattern in patterns_of(query) for constant in constants_of(pattern)]
        self.wanted = {constant.term for constant in self.constants}
        self.counts = {slot: Counter() for constant in self.constants for slot in constant.slots}
        self.slots = {}
        for slot in self.counts:
            self.slots.setdefault(slot.spot, []).append(slot)

    def spots(self):
        return self.slots.keys()

    def add(self, spot, triple):
        """Takes a triple of a spot: one of a graph of a name is one of any such graph too."""
        for there in (spot, ("any",)) if spot[0] == "named" else (spot,):
            for slot in self.slots.get(there, ()):
                if slot.predicate is None or slot.predicate == triple[1]:
                    self.count(self.counts[slot], triple[slot.part])

    def count(self, counts, term):
        if term in counts or len(counts) < MOST_TERMS or term in self.wanted:
            counts[term] += 1

    def is_seen(self, constant):
        return any(constant.term in self.counts[slot] for slot in constant.slots)

    def at(self, constant):
        """The terms at the slots of a constant, and how often each stands there."""
        return sum((self.counts[slot] for slot in dict.fromkeys(constant.slots)), Counter())
