"""The windows of a query: how wide, how often, for how long an item is kept, and how many triples a steady stream has there."""
import math
from collections import namedtuple
from fractions import Fraction

from model import MOST_HELD

from ..places import quoted
from ..timing import told
from .lengths import lasting

# so often the space in which the most rates lie is halved
BISECTIONS = 64
# in how many windows an item is, at least and at most, and for how many milliseconds it is kept at most, with the slack
Kept = namedtuple("Kept", "least most span")


def kept_of(window, slack):
    return Kept(window.width // window.slide, -(-window.width // window.slide), window.width + slack)


def said_of(clause, window, names, slack):
    """A window in a sentence."""
    kept = kept_of(window, slack)
    many = str(kept.most) if kept.least == kept.most else f"{kept.least} or {kept.most}"
    step = "end to end" if window.slide == window.width else f"one each {lasting(window.slide)}"
    begin = f", from {told(window.origin)} on" if window.origin else ""
    name, stream = (quoted(names.iri(clause[what])) for what in ("name", "stream"))
    return (
        f"{name} over {stream}: {lasting(window.width)} wide, {step}{begin}; an item is in {many} "
        f"{'window' if kept.most == kept.least == 1 else 'windows'}, and is kept for {lasting(kept.span)} at most"
    )


# ---- what a steady stream has


def longest_span(windows, slack):
    """For how many milliseconds the items of a stream are kept together at most: a window's, and the slack's behind it."""
    widest = max(windows, key=lambda window: window.width)
    if widest.slide <= widest.width or any(window != widest for window in windows):
        return widest.width + slack
    # what comes between two windows is in none, and isn't kept
    rounds, rest = divmod(slack, widest.slide)
    return widest.width + rounds * widest.width + max(0, rest - (widest.slide - widest.width))


def spans_of(windows, slack):
    """The span of each stream over which there are windows."""
    return {
        stream: longest_span([window for window in windows if window.stream == stream], slack)
        for stream in dict.fromkeys(window.stream for window in windows)
    }


def kept_triples(rates, spans):
    """How many triples are kept at most where the streams come steadily at their rates."""
    kept = ((math.ceil(items_in(rates[stream], span)), rates[stream].triples) for stream, span in spans.items())
    return sum(math.ceil(items * triples) for items, triples in kept)


def items_in(rate, span):
    """How many items come in so many milliseconds."""
    return rate.items * span / 1000


def full_after(rates, spans):
    """After how many milliseconds more triples are kept than may be, where it is so once all windows are full."""
    growing = sorted((span, rates[stream].items * rates[stream].triples / 1000) for stream, span in spans.items())
    for end, _ in growing:
        total = sum(rate * min(span, end) for span, rate in growing)
        if total > MOST_HELD:
            return end - (total - MOST_HELD) / sum(rate for span, rate in growing if span >= end)
    # an item more than the rate says is too many
    return max(spans.values())


def most_times(rates, spans):
    """By what the rates may be multiplied at most so that all is kept; None where nothing is, whatever comes."""
    steady = sum(items_in(rates[stream], span) * rates[stream].triples for stream, span in spans.items())
    if not steady:
        return None
    low, high = Fraction(0), MOST_HELD / steady
    for _ in range(BISECTIONS):
        middle = (low + high) / 2
        low, high = (middle, high) if is_kept(rates, spans, middle) else (low, middle)
    # it is where a stream has just a whole number of items
    each = [items_in(rates[stream], span) for stream, span in spans.items()]
    whole = [math.floor(high * items) / items for items in each if items]
    return max((times for times in [low, *whole] if is_kept(rates, spans, times)))


def is_kept(rates, spans, times):
    """Whether all is kept at so many times the rates."""
    return kept_triples({stream: rate._replace(items=rate.items * times) for stream, rate in rates.items()}, spans) <= MOST_HELD
