"""What comes and what is stored: by the words, or as it was measured in a log or in files."""
from collections import Counter
from fractions import Fraction

from algebra_model import matched

from ..course import MOST_TRIPLES, Course
from .asked import Rate

# so many triples of a stream, or quads of the store, are looked at
MOST_LOOKED_AT = 20_000


class Brought:
    """What a stream has brought: how many items and triples, from when on, and the triples of its first items."""

    def __init__(self):
        self.items, self.triples, self.first, self.last, self.sample = 0, 0, None, None, []

    def add(self, time, graph):
        self.items, self.triples = self.items + 1, self.triples + len(graph)
        self.first = time if self.first is None else min(self.first, time)
        self.last = time if self.last is None else max(self.last, time)
        self.sample += graph[:MOST_LOOKED_AT - len(self.sample)]

    def rate(self):
        """None where no time goes by between its items."""
        if self.first == self.last:
            return None
        return Rate(Fraction(1000 * (self.items - 1), self.last - self.first), Fraction(self.triples, self.items))


class Measured(Course):
    """A course of events, and what the items have brought that weren't refused."""

    def __init__(self, slack=0):
        super().__init__(slack)
        self.brought = {}

    def item(self, stream, time, graph, *places):
        is_taken = (self.next is None or time >= self.next) and len(graph) <= MOST_TRIPLES
        super().item(stream, time, graph, *places)
        if is_taken:
            self.brought.setdefault(stream, Brought()).add(time, graph)


class Load:
    """The rates of streams, how many quads are stored, and what stands in both, as far as it is known."""

    def __init__(self, asked, course):
        self.samples = {stream: brought.sample for stream, brought in course.brought.items()} if course else {}
        measured = {stream: brought.rate() for stream, brought in course.brought.items()} if course else {}
        self.rates = {stream: rate for stream, rate in {**measured, **asked.rates}.items() if rate is not None}
        self.measured = {stream for stream in self.rates if stream not in asked.rates}
        self.stored = asked.stored if asked.stored is not None else len(course.stored) if course else None
        self.facts = list(course.stored)[:MOST_LOOKED_AT] if course else []

    def triples_at(self, place, windows):
        """How many triples there are at a place; None where nobody knows."""
        if place[0] != "window":
            return self.stored
        window = windows[place[1]]
        rate = self.rates.get(window.stream)
        return None if rate is None else rate.items * rate.triples * window.width / 1000

    def share(self, pattern, windows, patterns):
        """Which part of the triples at its place a pattern finds: as those do that are known, else as all patterns there do."""
        place = pattern[1]
        if place[0] == "window":
            facts = [(place, *triple) for triple in self.samples.get(windows[place[1]].stream, ())]
        else:
            facts = self.facts
        if facts:
            return Fraction(sum(1 for _ in matched(pattern, facts)), len(facts))
        return Fraction(1, patterns[key_of(place)])

    def rows_of(self, pattern, windows, patterns):
        """How many rows a pattern has; None where nobody knows."""
        triples = self.triples_at(pattern[1], windows)
        return None if triples is None else triples * self.share(pattern, windows, patterns)


def key_of(place):
    return place if place[0] == "window" else ("stored",)


def patterns_by_place(patterns):
    """How many patterns look at each window, and at what is stored."""
    return Counter(key_of(pattern[1]) for pattern in patterns)
