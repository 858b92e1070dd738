"""What a line of the program says: a report, a refusal, an overfull report, a graph; or why it is none of these."""
import json
import re
from typing import List, NamedTuple, Tuple

from .. import refusals
from .words import NAME_OF_QUERY

MOST_TIME = 253_402_300_799_999
MOST_VARIABLES = 64
TABLE = re.compile(rb"# report [A-Za-z0-9_-]{1,64} [0-9]+ [0-9]+")
MEMBERS_OF_TERM = {"type", "value", "datatype", "xml:lang"}


class Report(NamedTuple):
    """A report: the query's name, the instant in milliseconds since 1970, the variables, and a row's terms by variable."""

    query: str
    at: int
    variables: Tuple[str, ...]
    rows: List[dict]


class Graph(NamedTuple):
    """A report that is a graph, which the board doesn't show."""


class Bad(NamedTuple):
    """A line that the board can't show."""

    why: str


class Wrong(Exception):
    """What a line says has a wrong member."""


def saying(line):
    """What a line says."""
    if line.fault:
        return Bad(line.fault)
    if line.content.startswith(b"#"):
        return refusals.told(line.content + b"\n") or of_sign(line.content)
    return of_json(line.content)


def of_sign(content):
    if TABLE.fullmatch(content):
        return Bad("it begins a report as a table: the board reads reports as JSON, as `./rsp events --json` writes them")
    return Bad("it begins as a refusal and is none" if is_text(content) else "it isn't UTF-8")


def is_text(content):
    try:
        return content.decode() is not None
    except UnicodeDecodeError:
        return False


def of_json(content):
    if not is_text(content):
        return Bad("it isn't UTF-8")
    try:
        return report(loaded(content.decode()))
    except Wrong as why:
        return Bad(str(why))
    except RecursionError:
        return Bad("it is nested too deep")
    except ValueError:
        return Bad("it is neither a report in JSON nor a refusal")


def loaded(text):
    """A text of JSON. No member of a report is a long number or one with a point, and such are costly to read."""
    return json.loads(
        text, parse_int=lambda digits: int(digits) if len(digits) < 20 else None, parse_float=lambda _: None,
        parse_constant=lambda _: None
    )


def report(value):
    """The report that an object of JSON is."""
    need(isinstance(value, dict), "it is JSON, and no object")
    if "graph" in value:
        return Graph()
    query, at = value.get("query"), value.get("at")
    need(isinstance(query, str) and NAME_OF_QUERY.fullmatch(query), "its `query` is no query's name")
    need(type(at) is int and 0 <= at <= MOST_TIME, "its `at` is no instant")
    variables = member(value.get("head"), "vars")
    need(variables is not None and all(isinstance(name, str) for name in variables), "its `head` has no list `vars` of names")
    need(len(set(variables)) == len(variables) <= MOST_VARIABLES, f"its `vars` aren't at most {MOST_VARIABLES} different names")
    rows = member(value.get("results"), "bindings")
    need(rows is not None, "its `results` have no list `bindings`")
    need(all(map(is_row, rows)), "one of its rows has what is no term")
    need(set().union(*rows) <= set(variables), "one of its rows binds what `vars` doesn't name")
    return Report(query, at, tuple(variables), rows)


def need(holds, why):
    if not holds:
        raise Wrong(why)


def member(value, name):
    """The list of that name in an object, or None."""
    found = value.get(name) if isinstance(value, dict) else None
    return found if isinstance(found, list) else None


def is_row(row):
    return isinstance(row, dict) and all(map(is_term, row.values()))


def is_term(term):
    if not isinstance(term, dict) or not MEMBERS_OF_TERM.issuperset(term):
        return False
    return term.get("type") in ("uri", "bnode", "literal") and "value" in term and set(map(type, term.values())) == {str}
