"""What the definitions say of when a query reports: its policy, its windows, what they hold, and at which instants it is due.

A query has a policy, windows, and the number of the first item that it sees. An item is a stream, a time and a graph; its
number is its place in the list of all accepted ones. A content is a list of such numbers.
"""
from collections import namedtuple
from math import gcd

from query_model import milliseconds

Policy = namedtuple("Policy", "strategies is_by_tuple")
Window = namedtuple("Window", "stream width slide origin")

# ---- policies

PROFILES = {"CSPARQL": Policy([("CLOSE", None), ("NONEMPTY", None)], False), "CQELS": Policy([("CHANGE", None)], True)}


def policy_of(words):
    """The policy that the words of a text ask for, each strategy with its period, where it has one."""
    kind, *fields = words or ("profile", "CSPARQL")
    if kind == "profile":
        return PROFILES[fields[0]]
    strategies, tick = fields
    return Policy([(name, span and milliseconds(span)) for name, span in strategies], tick == "TUPLE")


def is_mixed(policy):
    """Whether the policy is refused: a strategy stands twice, or one that needs instants stands under TICK TUPLE."""
    names = [name for name, _ in policy.strategies]
    return len(set(names)) < len(names) or (policy.is_by_tuple and not {"CLOSE", "EVERY"}.isdisjoint(names))


# ---- windows: window k opens at origin + k * slide, closes a width later, and holds times behind its opening up to its closing


def window_of(clause, words):
    """The windows of a clause. Without STEP they open at each millisecond under CQELS, and end to end otherwise."""
    width = milliseconds(clause["range"])
    usual = 1 if words == ("profile", "CQELS") else width
    slide = milliseconds(clause["step"]) if clause["step"] else usual
    return Window(clause["stream"].encode(), width, slide, clause["start"] or 0)


def first_closing(window, at):
    """The first closing that is at the instant or behind it."""
    first = window.origin + window.width
    return first + max(0, -(-(at - first) // window.slide)) * window.slide


def closes(window, at):
    return first_closing(window, at) == at


def opening_of_active(window, at):
    """Where the first of the windows that contain the instant opens; None where none contains it."""
    opening = first_closing(window, at) - window.width
    return opening if opening < at else None


def content(query, window, items, at):
    """What the window holds at the instant, of the items that the query sees."""
    opening = opening_of_active(window, at)
    if opening is None:
        return []
    seen = range(query.first, len(items))
    return [number for number in seen if items[number][0] == window.stream and opening < items[number][1] <= at]


def contents(query, items, at):
    return [content(query, window, items, at) for window in query.windows]


def last_closing(window, time):
    """The last closing of the windows that contain the time, or None. The last that opens before it is the last to close."""
    opened = -(-(time - window.origin) // window.slide) - 1
    closing = window.origin + opened * window.slide + window.width
    return closing if opened >= 0 and time <= closing else None


def is_needed(query, number, item, next_instant):
    """Whether some window of the query that sees the item contains it and closes at `next_instant` or later."""
    stream, time, _ = item
    ends = [last_closing(window, time) for window in query.windows if window.stream == stream]
    return number >= query.first and any(end is not None and next_instant <= end for end in ends)


# ---- when a query is due: each strategy holds by some window, maybe each by another


def holds(strategy, query, items, at):
    """Whether a strategy holds at an instant that is complete."""
    name, period = strategy
    if name == "CLOSE":
        return any(closes(window, at) for window in query.windows)
    if name == "CHANGE":
        return any(now != before for now, before in zip(contents(query, items, at), contents(query, items, at - 1)))
    if name == "NONEMPTY":
        return any(contents(query, items, at))
    return at % period == 0


def is_due(query, items, at):
    return not query.policy.is_by_tuple and all(holds(strategy, query, items, at) for strategy in query.policy.strategies)


def holds_on_arrival(strategy, query, items):
    """Whether a strategy holds on the last item, at its time."""
    now = contents(query, items, items[-1][1])
    return any(len(items) - 1 in held for held in now) if strategy[0] == "CHANGE" else any(now)


def is_due_on_arrival(query, items):
    is_asked = query.policy.is_by_tuple and items[-1][0] in [window.stream for window in query.windows]
    return is_asked and all(holds_on_arrival(strategy, query, items) for strategy in query.policy.strategies)


# ---- the instants that are worth a look, however much time there is: those at which the policy can hold. `is_due` then decides.


def closings(query, start, to):
    return {at for window in query.windows for at in range(first_closing(window, start), to, window.slide)}


def multiples(period, start, to):
    return range(-(-start // period) * period, to, period)


def meetings(window, period, start, to):
    """The closings that are multiples of the period.

    One step through the rarer of the two is enough: whether it meets the other goes by the remainder, and the remainders
    come again behind the least common multiple. So what isn't met within one such round is never met, and what is met is
    met once in each round from there on.
    """
    first, both = first_closing(window, start), window.slide * period // gcd(window.slide, period)
    round_end = min(to, first + both)
    if window.slide < period:
        met = (at for at in multiples(period, first, round_end) if (at - first) % window.slide == 0)
    else:
        met = (at for at in range(first, round_end, window.slide) if at % period == 0)
    at = next(met, None)
    return [] if at is None else range(at, to, both)


def held_spans(query, items, start, to):
    """Where some content can hold an item or has just lost one, as disjoint spans: an item is in no content before its time,
    nor a width or more behind it, since a window that holds it opens before it. So nothing is due between two spans where
    the policy has NONEMPTY or CHANGE."""
    widest = max((window.width for window in query.windows), default=0)
    for time in sorted(time for _, time, _ in items[query.first:]):
        start, end = max(start, time), min(to, time + widest + 1)
        if start < end:
            yield start, end
            start = end


def instants(query, items, start, to):
    """Some instants from `start` on and before `to`, among them each at which the query is due."""
    periods = dict(query.policy.strategies)
    if query.policy.is_by_tuple:
        return set()
    is_of_contents = "CHANGE" in periods or "NONEMPTY" in periods
    spans = held_spans(query, items, start, to) if is_of_contents else [(start, to)]
    return {at for span in spans for at in instants_of_span(query, periods, items, *span)}


def instants_of_span(query, periods, items, start, to):
    if "CLOSE" in periods and "EVERY" in periods:
        return {at for window in query.windows for at in meetings(window, periods["EVERY"], start, to)}
    if "CLOSE" in periods:
        return closings(query, start, to)
    if "EVERY" in periods:
        return multiples(periods["EVERY"], start, to)
    if "CHANGE" in periods:
        # a content changes where an item comes, and directly behind a closing
        times = {item[1] for item in items[query.first:]}
        return {at for at in times if start <= at < to} | {at + 1 for at in closings(query, start - 1, to - 1)}
    return range(start, to)
