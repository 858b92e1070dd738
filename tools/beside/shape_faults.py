"""Faults of a text's shape and of its policy, 11 to 14: where they are, and by what they came so."""
import difflib

import model
import query_model
import shape_model
from policy_model import is_mixed, policy_of
from query_model import said, tokens_of

from .looks import Looked, Sign
from .places import quoted
from .token_faults import sort_of


def of_shape(text, query):
    why = shape_model.fault(query)
    if why is None:
        return None
    name, detail = why
    refusal = model.text_refusal(name, detail)
    if name == "Scope":
        sort, variable = next(shape_model.scope_faults(query, query["select"]))
        return Looked(refusal, variable.start, SCOPES[sort].format(f"`?{detail}`"), Sign("13", sort))
    if name == "ExistsShape":
        sort = sort_of_exists(query["select"]["body"], detail)
        return Looked(refusal, detail, EXISTS[sort], Sign("12", sort))
    there, *others = [token for token in tokens_of(text) if token.start >= detail]
    what, behind = sort_of(said(there)), [sort_of(said(token)) for token in others]
    names = names_of_windows(text, query, others[0].text) if what == "WINDOW" else ()
    return Looked(refusal, detail, SHAPES[what], Sign("11", what, (), behind), names=names)


def names_of_windows(text, query, wrong):
    """The names of the windows as their clauses write them, the nearest to the wrong one first."""
    starts = [clause["name"].start for clause in query["windows"]]
    names = dict.fromkeys(token.text for token in tokens_of(text) if token.start in starts)
    return sorted(names, key=lambda name: -difflib.SequenceMatcher(None, wrong, name).ratio())


SCOPES = {
    "made by BIND": "what stands before it in the same braces can bind {0}, so BIND can't make it",
    "made in SELECT": "{0} is there already, so an AS of the SELECT can't make it",
    "made as a key": "{0} is there already, so an AS of GROUP BY can't make it",
    "shown twice": "{0} is shown twice",
    "no GROUP BY": "{0} stands outside an aggregate in a SELECT with groups, which has no GROUP BY",
    "no key": "{0} stands outside an aggregate in a SELECT with groups, and is no key of GROUP BY",
    "no key in HAVING": "{0} stands outside an aggregate in HAVING, and is no key of GROUP BY",
    "all shown": "`*` can't stand in a SELECT with groups",
}
SHAPES = {
    "WINDOW": "no FROM NAMED WINDOW declares this window",
    "FROM": "this clause declares a window that an earlier one declares",
    "GRAPH": "the braces of a GRAPH with a variable are empty, or hold anything but triples",
}
EXISTS = {
    "within OPTIONAL": "this EXISTS stands directly in the braces of OPTIONAL",
    "optional": "the braces of this EXISTS hold an OPTIONAL",
    "minus": "the braces of this EXISTS hold a MINUS",
    "bind": "the braces of this EXISTS hold a BIND",
    "values": "the braces of this EXISTS hold VALUES",
    "graph": "the braces of this EXISTS hold a GRAPH with a variable",
    "exists": "the braces of this EXISTS hold an EXISTS",
    "filter": "within the braces of this EXISTS a FILTER stands in braces of its own",
    "sub": "the braces of this EXISTS hold a select",
}


def sort_of_exists(body, at, is_of_optional=False):
    """What makes the EXISTS at this place one that can't be tested."""
    for part in body:
        if part[0] == "exists" and part[2] == at:
            return "within OPTIONAL" if is_of_optional and is_testable(part) else first_odd_part(part[3], True)
        for inner in [part[1]["body"]] if part[0] == "sub" else query_model.groups_in(part):
            found = sort_of_exists(inner, at, part[0] == "optional")
            if found:
                return found
    return None


def is_testable(exists):
    return all(part[0] == "filter" or shape_model.is_plain(part) for part in exists[3])


def first_odd_part(body, is_outermost):
    """The first part that can't be compared row by row: within WINDOW and the like it may lie deeper."""
    for part in body:
        if shape_model.is_plain(part) or (part[0] == "filter" and is_outermost):
            continue
        deeper = part[0] in ("union", "window") or (part[0] == "graph" and part[1][0] != "variable")
        found = [first_odd_part(inner, False) for inner in query_model.groups_in(part)] if deeper else []
        return next(filter(None, found), part[0])
    return None


def of_policy(query):
    """A policy that is refused, with the strategy that can't stand beside the others."""
    policy = policy_of(query["policy"])
    if not is_mixed(policy):
        return None
    names = [name for name, _ in query["policy"][1]]
    for place, name in enumerate(names):
        if name in names[:place]:
            sign = Sign("14", "EVERY twice" if name == "EVERY" else "twice")
            return Looked("14 PolicyMix", name.start, f"{quoted(name)} stands twice in the policy", sign)
    name = next(name for name in names if name in ("CLOSE", "EVERY"))
    return Looked("14 PolicyMix", name.start, f"{quoted(name)} can't stand with TICK TUPLE", Sign("14", "tuple"))
