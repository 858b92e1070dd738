"""What a log or the files of a run bring, event by event: streams, times, values, what is stored, and which queries are live."""
from collections import namedtuple

from policy_model import policy_of, window_of

from .aftermath import Aftermath
from .merged_triples import mergings_of
from .sightings import Sightings
from .timing import Gaps
from .values import Values

MOST_QUERIES, MOST_TRIPLES, MOST_QUADS = 256, 100_000, 1_000_000

# an item: its place is that of its time; `is_number` says how this is written
Seen = namedtuple("Seen", "stream time is_number place")


class Watched:
    """A query that was live: its text, from which instant on and up to which one, and the streams that fed it."""

    def __init__(self, name, query, text, start):
        self.name, self.query, self.text, self.start = name, query, text, start
        self.policy = policy_of(query["policy"])
        self.windows = [window_of(clause, query["policy"]) for clause in query["windows"]]
        self.streams, self.fed, self.stop = {window.stream for window in self.windows}, set(), None
        self.gaps, self.sightings = [Gaps(window) for window in self.windows], Sightings(query)
        self.mergings = mergings_of(query, self.windows)
        self.looks_at_stored = any(spot[0] != "stream" for spot in self.sightings.spots())

    def take(self, seen, graph, lines):
        """Takes an item of one of its streams, with the places of its triples."""
        self.fed.add(seen.stream)
        for gaps in self.gaps:
            if gaps.window.stream == seen.stream:
                gaps.add(seen.time)
        for triple in graph:
            self.sightings.add(("stream", seen.stream), triple)
        for merging in self.mergings:
            if merging.window.stream == seen.stream:
                merging.add(seen.time, zip(graph, lines))


class Course:
    """All of it so far. `next` is the first instant that isn't complete, None before any item or tick; by the slack an item may
    be behind the latest one."""

    def __init__(self, slack=0):
        self.slack, self.next, self.live, self.watched, self.values = slack, None, {}, [], Values()
        self.items, self.late, self.graphs = [], [], set()
        self.streams, self.stored, self.refused = {}, {}, Aftermath()

    # ---- queries

    def register(self, name, query, text):
        if len(self.live) < MOST_QUERIES:
            self.live[name] = watched = Watched(name, query, text, self.next)
            self.watched.append(watched)
            for spot, *triple in self.stored if watched.looks_at_stored else ():
                watched.sightings.add(spot, triple)
        else:
            self.refused.reads = True

    def cancel(self, name):
        query = self.live.pop(name, None)
        if query:
            query.stop = self.next

    def end(self):
        for name in list(self.live):
            self.cancel(name)

    # ---- time, items, what is stored

    def move(self, time):
        """Time goes on; the first event sets it and completes nothing."""
        if self.next is None:
            for query in self.live.values():
                query.start = time
        self.next = time

    def tick(self, time):
        if self.next is None or time + 1 >= self.next:
            self.move(time + 1)

    def item(self, stream, time, graph, is_number, place, lines):
        """An item that isn't refused feeds the live queries of its stream. `lines` are the places of its triples."""
        seen = Seen(stream, time, is_number, place)
        self.items.append(seen)
        if self.next is not None and time < self.next:
            self.late.append((self.next - time, seen))
        if (self.next is not None and time < self.next) or len(graph) > MOST_TRIPLES:
            self.refuse(stream, time, graph)
            return
        self.move(max(self.next or 0, time - self.slack))
        self.streams.setdefault(stream, seen)
        for query in self.live.values():
            if stream in query.streams:
                query.take(seen, graph, lines)
        for (_, predicate, term), line in zip(graph, lines):
            self.values.add(("stream", stream), predicate, term, line)

    def refuse(self, stream, time, graph):
        """An item that comes too late or is too large: what it has isn't unseen, and its stream isn't unfed."""
        self.refused.fed.add(stream)
        self.refused.moves_time |= self.next is None or time >= self.next
        for query in self.live.values():
            for triple in graph if stream in query.streams else ():
                query.sightings.add(("stream", stream), triple)

    def insert(self, facts, lines):
        """An insert that isn't refused stores what isn't stored yet."""
        news = [fact for fact in dict.fromkeys(facts) if fact not in self.stored]
        if len(self.stored) + len(news) > MOST_QUADS:
            self.refused.stores = True
            return
        self.stored.update(dict.fromkeys(news))
        for (spot, _, predicate, term), line in zip(facts, lines):
            self.graphs.add(spot)
            self.values.add(spot, predicate, term, line)
        for query in self.live.values():
            for spot, *triple in news if query.looks_at_stored else ():
                query.sightings.add(spot, triple)

    def delete(self, facts):
        for fact in facts:
            self.stored.pop(fact, None)
