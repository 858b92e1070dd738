"""Loads of logs under a slack: items of one triple, two milliseconds apart, in order or up to the slack behind the latest one.

Their queries count what they keep and ask for contents, so that the times of items are kept beside their windows. Each load is
made from its size alone, as those of loads.py.
"""
import random
from collections import namedtuple
from functools import partial

from loads import block

Load = namedtuple("Load", "generate size slack")
DAY = 86_400_000
# how many items are kept once as many have come: with those of five seconds more not more triples than can be kept
MOST_ITEMS, KEPT = 1_200_000, 990_000
BURST = 10_000
REPORTS = {"reports far apart": "EVERY P365D", "each second": "EVERY PT1S"}


def counting(strategy, stream="a", kept=KEPT):
    """A query of this stream, under the stream's name, over a window of so many times two milliseconds."""
    clause = f"FROM NAMED WINDOW <w:1> ON <s:{stream}> [RANGE PT{2 * kept / 1000}S STEP PT0.002S]"
    head = f"REGISTER RSTREAM <q:o> REPORT NONEMPTY AND {strategy} TICK TIME AS SELECT (COUNT(*) AS ?n) {clause}"
    return block(f"@register {stream}", [f"{head} WHERE {{ WINDOW <w:1> {{ ?x <p:v> ?y }} }}\n"])


def item(number, time, stream=b"a"):
    return b"@item <s:%s> %d\n<a:%d> <p:v> <o:1> .\n@end\n" % (stream, time, number)


def items(order):
    """The items of these numbers, which say their times, in this order."""
    return b"".join(item(number, 2 * number + 1) for number in order)


def within(spread, strategy):
    """A load of so many items, each up to so many milliseconds behind the latest one."""

    def load(size):
        dice = random.Random(size)
        order = range(size) if spread == 0 else sorted(range(size), key=lambda number: 2 * number + dice.randint(0, spread))
        return counting(strategy) + items(order)

    return load


def ahead(by, strategy):
    """A load of so many items of two streams in turn, of which the first is ahead of the second by so many milliseconds."""

    def load(size):
        live = counting(strategy, "a") + counting(strategy, "b")
        turns = (item(k, 2 * k + 1, b"b") if k % 2 else item(k, 2 * k + 1 + by) for k in range(size))
        return live + b"".join(turns)

    return load


def behind(burst):
    """A load of so many items in order, behind readings that came in the order of these numbers."""
    return lambda size: counting("EVERY PT1S", kept=KEPT - BURST) + items(burst) + items(range(BURST, BURST + size))


IN_ORDER, AHEAD = partial(within, 0), partial(ahead, 5_000)
LOADS = {
    **{
        f"within {spread} ms, {reports}": Load(within(spread, strategy), MOST_ITEMS, spread)
        for reports, strategy in REPORTS.items() for spread in (0, 100, 5_000)
    },
    **{
        f"{name}, {reports}": Load(load(strategy), MOST_ITEMS, 5_000) for reports, strategy in REPORTS.items()
        for name, load in {"in order, slack of 5 s": IN_ORDER, "a stream ahead by 5 s": AHEAD}.items()
    },
    "behind 10,000, newest first": Load(behind(range(BURST - 1, -1, -1)), 1_000_000, 2 * BURST),
    "behind 10,000, oldest first": Load(behind(range(BURST)), 1_000_000, 2 * BURST),
    "a slack of a day, in order": Load(within(0, REPORTS["each second"]), 900_000, DAY),
    "a slack of a day, in any order": Load(within(DAY, REPORTS["each second"]), 100_000, DAY),
}
