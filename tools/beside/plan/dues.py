"""When a query reports: its policy in words, the next instants at which it may, and what has to come for each."""
import heapq
import itertools
from collections import namedtuple

from policy_model import first_closing, meetings, multiples
from query_model import LAST_INSTANT

from ..places import quoted
from ..timing import told
from .lengths import lasting

# an instant at which a query may report, and from which time on an item or a tick lets it
Due = namedtuple("Due", "at item tick")
# when a query reports: in words, the next instants, None where contents or items decide alone, and what lets a report come
Reports = namedtuple("Reports", "said dues lets")

TOLD = {
    "RSTREAM": "all rows", "ISTREAM": "the rows that weren't in the report before",
    "DSTREAM": "the rows that were in the report before and are gone",
}
HOLDS = {
    "CLOSE": "one of its windows closes", "CHANGE": "what a window holds isn't what it held the instant before",
    "NONEMPTY": "a window holds an item",
}
LETS = {"CHANGE": "has got or lost an item then", "NONEMPTY": "holds an item then"}
MOST_DUES = 3


# ---- instants


def instants_from(policy, windows, start):
    """All instants from `start` on at which the query may report, in order; None where contents or items decide alone."""
    periods, end = dict(policy.strategies), LAST_INSTANT + 1
    if policy.is_by_tuple or not {"CLOSE", "EVERY"}.intersection(periods):
        return None
    if "CLOSE" not in periods:
        return iter(multiples(periods["EVERY"], start, end))
    if "EVERY" in periods:
        of_windows = [meetings(window, periods["EVERY"], start, end) for window in windows]
    else:
        of_windows = [range(first_closing(window, start), end, window.slide) for window in windows]
    return (at for at, _ in itertools.groupby(heapq.merge(*of_windows)))


def dues(policy, windows, start, slack):
    """The next instants, each with what has to come: an item behind it, by the slack, or a tick at it."""
    found = instants_from(policy, windows, start)
    return None if found is None else [Due(at, at + 1 + slack, at) for at in itertools.islice(found, MOST_DUES)]


# ---- words


def reports_of(query, policy, windows, start, slack):
    return Reports(said_of(query["operator"], policy), dues(policy, windows, start, slack), what_lets(policy, windows))


def said_of(operator, policy):
    """The operator and the policy in a sentence."""
    if policy.is_by_tuple:
        held = [{"CHANGE": "a window holds it", "NONEMPTY": "a window holds one"}[name] for name, _ in policy.strategies]
        return f"{operator}, {TOLD[operator]}: on each item of its streams, if {' and '.join(held)}"
    held = [HOLDS.get(name) or f"the time is a multiple of {lasting(period)}" for name, period in policy.strategies]
    return f"{operator}, {TOLD[operator]}: at each instant at which {' and '.join(held)}"


def what_lets(policy, windows):
    """What lets a report come, beside time; None where time is enough."""
    names = {name for name, _ in policy.strategies}
    streams = " or ".join(dict.fromkeys(quoted(b"<%s>" % window.stream) for window in windows))
    if policy.is_by_tuple:
        return f"an item of {streams} lets one come, at once, without a tick"
    if {"CLOSE", "EVERY"}.intersection(names):
        wanted = [lets for name, lets in LETS.items() if name in names]
        return f"it comes only if a window {' and one '.join(wanted)}" if wanted else None
    if "CHANGE" in names:
        still = ", if a window still holds an item" if "NONEMPTY" in names else ""
        return f"an item of {streams} lets one come, at its time, and one that leaves a window, behind a closing{still}"
    return f"an item of {streams} lets one come, at its time, and another each millisecond as long as a window holds it"


def in_words(due, mode):
    """A line of an instant, and what has to come for it."""
    tick = f"the last item of all files, of {due.tick}" if mode == "run" else f"a tick of {due.tick} or later"
    return f"at {told(due.at)}: with an item of {due.item} or later, or {tick}"
