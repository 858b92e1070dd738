"""Triples that two items bring to one window: it holds each once, so what is counted or added up there is less than came."""
from collections import namedtuple

from policy_model import last_closing
from query_model import groups_in
from value_model import term_of, variables_in

from .findings import Finding
from .pages import TOOLS, page_of
from .patterns import names_of_way, patterns_in

COUNTING = ("COUNT", "SUM", "AVG")
# of so many triples those are dropped that no window can hold any more
MOST_HELD = 100_000

# an aggregate of a query, with the patterns of the query's windows from which its values come
Counting = namedtuple("Counting", "aggregate patterns")
Came = namedtuple("Came", "time place")


# ---- what a query counts, adds up or averages


def countings_of(query):
    """The aggregates of a query that a triple more or less changes: not those of DISTINCT, MIN and MAX."""
    names, made = {clause["name"]: clause["name"] for clause in query["windows"]}, {}
    for spot, select in selects_of(query["select"], ("default",), names):
        patterns = [pattern for pattern in patterns_in(select["body"], spot, names) if pattern.spot[0] == "stream"]
        made.update(made_in(select))
        for _, kind, is_distinct, argument in select["aggregates"]:
            if kind in COUNTING and not is_distinct:
                wanted = None if argument is None else origins(variables_in(argument), made)
                yield Counting(kind, [pattern for pattern in patterns if wanted is None or wanted & variables_of(pattern)])


def selects_of(select, spot, names):
    """A SELECT and those within it, the innermost first, each with where its triples are looked for."""
    return [*selects_in(select["body"], spot, names), (spot, select)]


def selects_in(body, spot, names):
    for part in body:
        if part[0] == "sub":
            yield from selects_of(part[1], spot, names)
        inner_spot = ("stream", names.get(part[1])) if part[0] == "window" else spot
        for inner in groups_in(part):
            yield from selects_in(inner, inner_spot, names)


def made_in(select):
    """The variables that BIND and AS make in a SELECT, with those of which each is made."""
    return {v: variables_in(e) for v, e in [*binds_in(select["body"]), *select["keys"], *select["items"]] if e}


def binds_in(body):
    for part in body:
        if part[0] == "bind":
            yield part[1:3]
        for inner in groups_in(part):
            yield from binds_in(inner)


def origins(variables, made, seen=frozenset()):
    """The variables, and those of which they are made."""
    found = set(variables) - seen
    inner = [origins(made[variable], made, seen | found) for variable in found if variable in made]
    return found.union(*inner)


def variables_of(pattern):
    return {slot[1] for slot in (pattern.subject, pattern.object) if slot[0] == "variable"}


def is_match(pattern, triple):
    """Whether a triple can be one of those that the pattern finds."""
    kind, inner = pattern.way
    if kind == "step" and isinstance(inner, tuple):
        is_named = True
    else:
        is_named = triple[1].name.decode("utf-8", "replace") in names_of_way(pattern.way)
    ends = [(pattern.subject, triple[0]), (pattern.object, triple[2])] if kind == "step" else []
    return is_named and all(slot[0] == "variable" or term_of(slot[1]) == term for slot, term in ends)


# ---- what comes while it lives


class Merging:
    """For an aggregate and a window: how many triples it takes from there, and how many came again while the window held them."""

    def __init__(self, counting, window, name):
        self.aggregate, self.window = counting.aggregate, window
        self.patterns = [pattern for pattern in counting.patterns if pattern.spot[1] == name]
        self.total, self.many, self.first, self.held = 0, 0, None, {}

    def add(self, time, triples):
        """Takes the triples of an item with their places. A node counts as one that came before if all its triples did."""
        of_node = {}
        for triple, place in triples:
            if any(is_match(pattern, triple) for pattern in self.patterns):
                of_node.setdefault(triple[0], {}).setdefault(triple, place)
        for found in of_node.values():
            self.total += len(found)
            if all(self.is_held(triple, time) for triple in found):
                self.many += len(found)
                triple, place = next(iter(found.items()))
                self.first = self.first or (place, self.held[triple].place)
        for found in of_node.values():
            self.held.update((triple, Came(time, place)) for triple, place in found.items())
        self.drop(time)

    def is_held(self, triple, time):
        """Whether one of the windows holds the triple from before, and the time too."""
        return triple in self.held and self.share(self.held[triple].time, time)

    def share(self, one, other):
        closing = last_closing(self.window, min(one, other))
        return closing is not None and max(one, other) <= closing

    def drop(self, time):
        if len(self.held) > 2 * MOST_HELD:
            self.held = {triple: came for triple, came in self.held.items() if self.share(came.time, time)}


def mergings_of(query, windows):
    """One for each aggregate and each window into which it looks."""
    found = []
    for counting in countings_of(query):
        for clause, window in zip(query["windows"], windows):
            merging = Merging(counting, window, clause["name"])
            found += [merging] if merging.patterns else []
    return found


def merged(watched):
    """Each aggregate of whose triples some count once that came twice."""
    told = set()
    for merging in watched.mergings:
        start = merging.aggregate.start
        if merging.many and start not in told:
            told.add(start)
            yield of_merged(merging, watched.text.place(start))


def of_merged(merging, place):
    (file, line, _), (other, before, _) = merging.first
    comes, counts = ("comes", "counts") if merging.many == 1 else ("come", "count")
    said = (
        f"{merging.many} of {merging.total} triples that this {merging.aggregate} takes from the window {comes} again while it "
        f"holds them, and {counts} once, as that of {file}:{line}, which {other}:{before} has too"
    )
    write = "write a node of its own for each reading"
    return Finding(place, "merged", said, write, page_of(TOOLS, "merged"))
