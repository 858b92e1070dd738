"""The nodes of a query's tree: what each does, by which key two sides meet, what it keeps, and how many rows it has."""
from collections import namedtuple

from algebra_model import OF_ONE, decides, key

# `key` is None of a node without two sides that are matched, and `kept` is one of the words below
Node = namedtuple("Node", "depth kind said key kept tree")

NOTHING, LAST_REPORT = "nothing", "the rows of the last report"
LEFT, SIDES = "the left rows, and how many right rows each key has", "the rows of both sides by key"
PARTNERS = f"{SIDES}, and how many partners each left row has"
MATCHED = ("join", "left_join", "minus", "exists", "not_exists")
CONDITIONAL = ("left_join", "exists", "not_exists")
WORDS = {
    "join": "join", "left_join": "OPTIONAL", "minus": "MINUS", "exists": "EXISTS", "not_exists": "NOT EXISTS", "union": "UNION",
    "unit": "one empty row", "distinct": "DISTINCT",
}
NO_CONDITION = ("and", [])


def children(tree):
    """The trees below the root of one."""
    return tree[1:2] if tree[0] in OF_ONE else tree[1:3] if tree[0] in (*MATCHED, "union") else ()


def condition_of(tree):
    """The condition that OPTIONAL, EXISTS or NOT EXISTS tests on each pair of rows; None without one."""
    return tree[3] if tree[0] in CONDITIONAL and tree[3] != NO_CONDITION else None


def is_by_key_alone(tree):
    """Whether the key decides which left rows stay, and nothing else is asked."""
    return tree[0] in ("exists", "not_exists", "minus") and condition_of(tree) is None and decides(*tree[1:3])


def nodes_of(tree, names, windows, depth=0):
    """The nodes of a tree, each before those below it."""
    found_key = key(*tree[1:3]) if tree[0] in MATCHED else None
    kept = kept_by(tree) if depth else kept_by_root(tree)
    yield Node(depth, tree[0], said_of(tree, names, windows), found_key, kept, tree)
    for child in children(tree):
        yield from nodes_of(child, names, windows, depth + 1)


def noted(tree, names):
    """Has all aggregates of a tree named, so that nodes above their group can name them."""
    if tree[0] == "group":
        names.note(tree[3])
    for child in children(tree):
        noted(child, names)


# ---- what a node does


def said_of(tree, names, windows):
    kind = tree[0]
    if kind == "pattern":
        return f"triple {names.triple(tree)}{place_of(tree[1], names, windows)}"
    if kind == "values":
        return f"VALUES of {len(tree[1])} {'row' if len(tree[1]) == 1 else 'rows'}"
    if kind == "filter":
        return f"FILTER {names.expression(of_one(tree[2]))}"
    if kind == "extend":
        return f"{names.variable(tree[2])} made of {names.expression(tree[3])}"
    if kind == "project":
        return f"show {names.row(tree[2])}".rstrip()
    if kind == "group":
        return f"GROUP BY {names.row(tree[2])}" if tree[2] else "one group of all rows"
    condition = condition_of(tree)
    return WORDS[kind] if condition is None else f"{WORDS[kind]} where {names.expression(of_one(condition))}"


def of_one(condition):
    """A condition of one part alone as that part."""
    return condition[1][0] if condition[0] == "and" and len(condition[1]) == 1 else condition


def place_of(place, names, windows):
    """Where a pattern's triples are looked for."""
    if place[0] == "window":
        return f" in {names.iri(windows[place[1]])}"
    if place[0] == "named":
        return f" in the graph {names.term(place[1])}"
    return f" in each graph {names.variable(place[1])}" if place[0] == "any" else " in the default graph"


# ---- what a node keeps


def kept_by(tree):
    kind = tree[0]
    if kind == "group":
        return ", ".join(["for each group its number of rows", *kept_of_groups(tree[3])])
    if kind == "distinct":
        return "each row with its count"
    if kind == "join":
        return SIDES
    if kind not in MATCHED:
        return NOTHING
    if is_by_key_alone(tree):
        return LEFT if kind != "minus" or key(*tree[1:3]) else NOTHING
    return PARTNERS


def kept_by_root(tree):
    """The root has beside its own the rows of the last report."""
    own = kept_by(tree)
    return LAST_REPORT if own == NOTHING else f"{own}, {LAST_REPORT}"


def kept_of_groups(aggregates):
    """What is kept for each group beside the number of its rows."""
    kinds = [kind for _, kind, *_ in aggregates]
    is_of_values = {"MIN", "MAX"}.intersection(kinds) or any(is_distinct for _, _, is_distinct, _ in aggregates)
    told = {
        "its counts": "COUNT" in kinds, "its sums": {"SUM", "AVG"}.intersection(kinds), "each distinct value": is_of_values,
        "the row that it gave last": True,
    }
    return [what for what, is_so in told.items() if is_so]
