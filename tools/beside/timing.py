"""Time: reports that can't come, since time ends before; times that look like seconds; items that come too late."""
import datetime

from policy_model import first_closing, last_closing
from query_model import LAST_INSTANT

from .findings import Finding
from .pages import TOOLS, page_of
from .words import MOST_SLACK

# as seconds these are the years 2001 to 2128, and as milliseconds some days of January and February 1970
SECONDS = range(1_000_000_000, 5_000_000_000)
# times from here on are told with their date
MODERN = 100_000_000_000


def told(time):
    """The instant as a number; one that can be the time of a clock also as a date."""
    if not MODERN <= time <= LAST_INSTANT:
        return str(time)
    date = datetime.datetime(1970, 1, 1) + datetime.timedelta(milliseconds=time)
    return f"{time} ({date.isoformat(timespec='milliseconds')}Z)"


def unclosed(watched, course, mode):
    """A query of which no report can come, since time ends before the first instant at which it is asked."""
    place, policy = watched.text.place(watched.query["windows"][0]["at"]), dict(watched.policy.strategies)
    if watched.policy.is_by_tuple or course.refused.moves_time:
        return
    end = {"events": "a `@tick` behind the last item", "run": "a time line without quads at the end of a file"}[mode]
    if watched.start is None:
        yield of_unclosed(place, "nothing moves time while the query is live, so no report can come", f"write {end}")
        return
    first = first_asked(watched, policy)
    if watched.stop > first:
        return
    if watched.stop == watched.start:
        said = f"no instant gets complete while the query is live, as time stays at {told(watched.stop)}"
    else:
        said = f"time ends at {told(watched.stop - 1)}"
    is_closing = "CLOSE" in policy and "EVERY" not in policy
    said += f", and {'the first window closes at' if is_closing else 'no report is due before'} {told(first)}"
    write = f"write {end}, at {first} or later" if first <= LAST_INSTANT else "write shorter windows, or an earlier START"
    yield of_unclosed(place, f"{said}, so no report can come", write)


def first_asked(watched, policy):
    """The first instant at which the query can be asked."""
    closing = min(first_closing(window, watched.start) for window in watched.windows)
    first = closing if "CLOSE" in policy else watched.start
    period = policy.get("EVERY")
    return max(first, -(-watched.start // period) * period) if period else first


def of_unclosed(place, said, write):
    return Finding(place, "unclosed", said, write, page_of(TOOLS, "unclosed"))


def seconds(course):
    """Streams all of whose times are numbers that look like seconds."""
    of_stream = {}
    for item in course.items:
        of_stream.setdefault(item.stream, []).append(item)
    for items in of_stream.values():
        if all(item.is_number and item.time in SECONDS for item in items):
            as_date = datetime.datetime(1970, 1, 1) + datetime.timedelta(seconds=items[0].time)
            said = (
                f"the {'time' if len(items) == 1 else f'times of all {len(items)} items'} of this stream "
                f"{'looks' if len(items) == 1 else 'look'} like seconds since 1970: {items[0].time} would be {as_date:%Y-%m-%d}"
            )
            write = f"write milliseconds, as {items[0].time}000"
            yield Finding(items[0].place, "seconds", said, write, page_of(TOOLS, "seconds"))


def late(course):
    """The items that come too late, at the first of them."""
    if course.late:
        most, first = max(by for by, _ in course.late), course.late[0][1]
        count, whole = len(course.late), len(course.items)
        comes, is_refused = ("comes", "is refused") if count == 1 else ("come", "are refused")
        said = f"{count} of {whole} items {comes} too late, by {most} ms at most, and {is_refused}"
        slack = f", or run it under `--slack {course.slack + most}`," if course.slack + most <= MOST_SLACK else ""
        write = f"write them in the order of their times{slack} and let ticks lag by {most} ms more"
        yield Finding(first.place, "late", said, write, page_of(TOOLS, "late"))


class Gaps:
    """The items of a window clause's stream, and those of them that lie in none of its windows."""

    def __init__(self, window):
        self.window, self.total, self.lost, self.first = window, 0, 0, None

    def add(self, time):
        self.total += 1
        if last_closing(self.window, time) is None:
            self.lost += 1
            self.first = time if self.first is None else self.first


def gap(watched):
    """Each window whose STEP is longer than its RANGE, where an item lies in none of them."""
    for clause, gaps in zip(watched.query["windows"], watched.gaps):
        if gaps.window.slide > gaps.window.width and gaps.lost:
            said = (
                f"STEP is longer than RANGE, so there are gaps between the windows: {gaps.lost} of {gaps.total} items of this "
                f"stream {'lies' if gaps.lost == 1 else 'lie'} in none, the first at {told(gaps.first)}"
            )
            write = f"write a STEP of {clause['range']} at most, which is the RANGE"
            yield Finding(watched.text.place(clause["step"].start), "gap", said, write, page_of(TOOLS, "gap"))
