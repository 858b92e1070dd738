"""How many rows the nodes of a tree have under a load, and how much memory that takes by the figures of the page of costs."""
import re
from collections import namedtuple

from algebra_model import possible_variables

from ..pages import COSTS, table_rows
from .loads import patterns_by_place
from .nodes import LEFT, PARTNERS, SIDES, children, kept_by

MEMORY = "What memory it takes"
# how many rows, and whether that is the most, as behind a filter that may let fewer through; of None nobody knows how many
Rows = namedtuple("Rows", "many is_most")
# in kilobytes
Figures = namedtuple("Figures", "triple quad row")


def figures():
    """What a kept triple, a stored quad and a row of a side take, by the page of costs."""
    return Figures(*(float(re.fullmatch(r"([0-9.]+) KB", cells[1])[1]) for cells in table_rows(COSTS, MEMORY)))


class Sizes:
    """The rows of each node of a tree: as if each row found one partner, and each condition let all through."""

    def __init__(self, tree, windows, load):
        self.windows, self.load, self.found = windows, load, {}
        self.patterns = patterns_by_place(patterns_below(tree))
        self.of(tree)

    def of(self, tree):
        """The rows of a node of the tree, which are worked out once."""
        if id(tree) not in self.found:
            below = [self.of(child) for child in children(tree)]
            is_known = all(rows.many is not None for rows in below)
            self.found[id(tree)] = self.of_node(tree, below) if is_known else Rows(None, False)
        return self.found[id(tree)]

    def of_node(self, tree, below):
        kind = tree[0]
        if kind == "pattern":
            return Rows(self.load.rows_of(tree, self.windows, self.patterns), False)
        if kind in ("unit", "values"):
            return Rows(1 if kind == "unit" else len(tree[1]), False)
        if kind == "group" and not tree[2]:
            return Rows(1, False)
        is_most = any(rows.is_most for rows in below) or kind in ("filter", "distinct", "group", "minus", "exists", "not_exists")
        return Rows(rows_of_two(tree, *(rows.many for rows in below)) if len(below) == 2 else below[0].many, is_most)

    def on_sides(self, tree):
        """How many rows the nodes of a tree keep on their sides; None where nobody knows."""
        found = [self.on_sides(child) for child in children(tree)]
        if kept_by(tree) in (SIDES, PARTNERS, LEFT):
            sides = children(tree)[:1 if kept_by(tree) == LEFT else 2]
            found += [self.of(side).many for side in sides]
        return None if None in found else sum(found)


def patterns_below(tree):
    return [tree] if tree[0] == "pattern" else [found for child in children(tree) for found in patterns_below(child)]


def rows_of_two(tree, left, right):
    """Two sides that can share nothing give all pairs, others as many rows as the larger one has, if each finds a partner."""
    kind, one, other = tree[:3]
    if kind == "union":
        return left + right
    if kind in ("minus", "exists", "not_exists"):
        return left
    shares = possible_variables(one) & possible_variables(other)
    if not shares:
        return left * right if kind == "join" else left * max(1, right)
    return 0 if kind == "join" and 0 in (left, right) else max(left, right)


def memory(kept, stored, on_sides):
    """How many megabytes all of it takes."""
    each = figures()
    return (float(kept) * each.triple + float(stored) * each.quad + float(on_sides) * each.row) / 1000
