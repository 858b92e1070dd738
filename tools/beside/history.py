"""What has happened in a log up to a block: which queries are live, how far time has gone, what is kept and stored.

The program's own output says which blocks it refused and which queries were overfull, so nothing of that is worked out again.
"""
from collections import namedtuple

import policy_model

from .blocks import query_text
from .differing import Differs
from .limits import within_limits
from .places import quoted
from .texts import looked
from .words import MOST_SLACK

MOST_HELD, MOST_QUERIES, MOST_QUADS = 1_000_000, 256, 1_000_000

# the lines of a directive's block, in words
Ended = namedtuple("Ended", "how line")
Kept = namedtuple("Kept", "stream time triples line")
# a live query as far as `is_needed` looks at it
Windows = namedtuple("Windows", "first windows")


class History:
    """The state behind the blocks so far. `keeps` says whether items are kept in it, which takes memory; by the slack an item may
    be behind the latest one."""

    def __init__(self, keeps, slack=0):
        self.live, self.ended, self.overfull = {}, {}, []
        self.next, self.next_line, self.items, self.keeps = 0, None, [], keeps
        self.inserts, self.slack = [], slack
        # by how much each late item is too late, by its line, and whether there is a tick
        self.late, self.has_tick = {}, False

    def take(self, block, is_refused):
        """Goes on behind a block."""
        if block.event is None:
            return
        head, *fields = block.event
        line = block.lines[0].number
        self.has_tick |= head == b"@tick"
        if is_refused:
            if head == b"@register" and fields[0] not in self.live:
                self.ended[fields[0]] = Ended("is refused", line)
            return
        steps = {b"@register": self.register, b"@cancel": self.cancel, b"@item": self.item, b"@tick": self.tick}
        if head in steps:
            steps[head](block, line, *fields)
        elif head == b"@insert":
            self.inserts.append((len(fields[0]), line))

    def register(self, block, line, name, text):
        if name in self.live:
            self.drop_overfull(name)
        self.live.pop(name, None)
        self.live[name] = (line, block, len(self.items))

    def cancel(self, block, line, name):
        self.live.pop(name, None)
        self.ended[name] = Ended("is cancelled", line)

    def move(self, time, line):
        if time > self.next or self.next_line is None:
            self.next, self.next_line = time, line

    def item(self, block, line, stream, time, graph):
        self.move(self.next_with(time), line)
        if self.keeps:
            self.items.append(Kept(stream, time, len(graph), line))

    def next_with(self, time):
        """The first instant that isn't complete, with an item of this time."""
        return max(self.next, time - self.slack)

    def tick(self, block, line, time):
        self.move(time + 1, line)

    # ---- overfull reports stand in the output somewhere behind the refusals before them

    def note_overfull(self, name, time):
        self.overfull.append((name.encode(), time))

    def drop_overfull(self, name):
        """A live query whose name is taken anew was overfull before: its first report of those that aren't settled says so."""
        place = next((place for place, found in enumerate(self.overfull) if found[0] == name), None)
        if place is not None:
            del self.overfull[place]

    def settle(self):
        """At a refusal: the queries that were overfull before it are over."""
        for name, time in self.overfull:
            if self.live.pop(name, None):
                self.ended[name] = Ended(f"was overfull at {time}", None)
        self.overfull = []


# ---- why an event is refused: what is so, and what to write; None where the log doesn't say it so


def of_name_taken(history, block, details):
    name = block.event[1]
    if name not in history.live:
        return None
    said = f"{quoted(name)} is live since line {history.live[name][0]}, where it is registered"
    return said, f"write another name, or `@cancel {name.decode()}` before it"


def of_no_query(history, block, details):
    name = block.event[1]
    if name in history.live:
        return None
    ended = history.ended.get(name)
    if ended is None:
        return f"no query {quoted(name)} is registered before it", "write the name of a live query, or nothing"
    where = "" if ended.line is None else f" at line {ended.line}"
    said = f"the query {quoted(name)} {ended.how}{where}, so none of this name is live"
    return said, "write nothing, or a `@register` before it"


def of_full_queries(history, block, details):
    if len(history.live) != MOST_QUERIES:
        return None
    name, (line, *_) = next(iter(history.live.items()))
    said = f"{MOST_QUERIES} queries are live, and no more may be; the first is {quoted(name)} of line {line}"
    return said, f"write a `@cancel` before it, as `@cancel {name.decode()}`"


def of_late(history, block, details):
    kind, time = block.event[0], block.event[-1] if block.event[0] == b"@tick" else block.event[2]
    least = time if kind == b"@item" else time + 1
    if history.next != details["next"] or time != details["time"] or least >= history.next:
        return None
    if kind == b"@item":
        history.late[block.lines[0].number] = details["next"] - time
    said = f"it is {details['next'] - least} ms too late: all before {details['next']} is complete since line {history.next_line}"
    return said, f"write a time of {details['next'] - least + time} or later, or the block before line {history.next_line}"


def with_slack(finding, history):
    """The finding of an item that is too late, with the slack that takes all such items of the log, where one may be so great."""
    if isinstance(finding, Differs) or finding.kind != "15 Late" or finding.place.line not in history.late:
        return finding
    most = max(history.late.values())
    if history.slack + most > MOST_SLACK:
        return finding
    whom = "this late item, the only one" if len(history.late) == 1 else f"all {len(history.late)} late items of this log"
    ticks = f", with ticks that lag by {most} ms more" if history.has_tick else ""
    return finding._replace(write=f"run it under `--slack {history.slack + most}`{ticks}, which takes {whom}\nor {finding.write}")


def of_full_items(history, block, details):
    """The items that some window still needs, as of the time of the item that comes."""
    queries = [windows_of(live) for live in history.live.values()]
    if None in queries:
        said = f"with it {details['held']} triples would be kept, and {MOST_HELD} may be"
        return said, "write shorter windows, or less at a time"
    own, start = len(block.event[3]), history.next_with(block.event[2])
    kept = [item for number, item in enumerate(history.items) if is_needed(queries, number, item, start)]
    held = sum(item.triples for item in kept)
    if held + own != details["held"]:
        return None
    said = (
        f"with its {own} triples {details['held']} would be kept, and {MOST_HELD} may be: {len(kept)} items are still needed, "
        f"of {held} triples, the first at line {kept[0].line}"
    )
    return said, "write shorter windows, less at a time, or a `@cancel` of a query that needs them"


def windows_of(live):
    """The windows of a live query; None where the model hasn't read its text."""
    _, block, first = live
    its = within_limits(looked, query_text(block))
    if its is None or its.query is None:
        return None
    words = its.query["policy"]
    return Windows(first, [policy_model.window_of(clause, words) for clause in its.query["windows"]])


def is_needed(queries, number, item, time):
    return any(policy_model.is_needed(query, number, (item.stream, item.time, ()), time) for query in queries)


def of_full_store(history, block, details):
    said = f"with it {details['quads']} quads would be stored, and {MOST_QUADS} may be"
    if history.inserts:
        most, line = max(history.inserts)
        said += f"; {len(history.inserts)} inserts stand before it, the largest at line {line}, of {most} quads"
    return said, "write a `@delete` before it, of what isn't needed any more"


REASONS = {
    "15 Late": of_late, "16 NameTaken": of_name_taken, "17 NoQuery": of_no_query, "18 QueriesFull": of_full_queries,
    "19 HeldFull": of_full_items, "20 StoreFull": of_full_store,
}
