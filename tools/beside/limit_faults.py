"""Limits that a text passes, 10: how many there are, how many there may be, and where the count comes past that."""
import query_model
from query_model import MOST_OPEN, tokens_of

from .counted import place_past
from .looks import Looked, Sign
from .places import quoted


def of_limit(name, at, said_here):
    return Looked(f"10 Limit what={name}", at, said_here, Sign("10", name))


def of_passed_limit(text, name):
    tokens = tokens_of(text)
    if name == "nesting":
        there = query_model.too_deep(tokens)
        return of_limit(name, there.start, f"here {MOST_OPEN + 1} signs are open, and {MOST_OPEN} may be")
    tree, numbers, select = query_model.numbered_tree(text, tokens)
    if name == "span":
        wrong = next(span for span in query_model.spans_of(tree) if not query_model.is_span(span))
        size = query_model.milliseconds(wrong)
        return of_limit(name, wrong.start, f"{quoted(wrong)} is {size} ms, and 1 to {query_model.LAST_INSTANT} may be")
    found = {what: (count, most) for what, count, most in query_model.counts(tree, numbers, select)}
    count, most = found[name]
    at = place_past(name, most, tree, numbers)
    return of_limit(name, at, f"the query has {count} {name}, and {most} may be; the first too many stands here")
