"""What to look out for in a plan: what takes all pairs of rows, what is near a limit, and what reports each millisecond."""
from algebra_model import MOST_ROWS, OF_ONE, certain_variables, key, possible_variables
from value_model import variables_in

from ..findings import Finding
from ..pages import TOOLS, page_of
from .lengths import decimal
from .nodes import CONDITIONAL, MATCHED, children, condition_of, is_by_key_alone

# a node with more rows than this is near the limit
NEAR = MOST_ROWS // 2


def look_outs(query, text, tree, names, sizes, policy, windows):
    """All of one plan, those of its policy first."""
    yield from busy(query, text, policy, windows)
    yield from Pairs(text, names).of_tree(tree, [])
    yield from full(text, tree, sizes)


def told(text, at, kind, said, write):
    return Finding(text.place(at), kind, said, f"write {write}", page_of(TOOLS, "Look out"), text.shown(at))


def first_place(tree):
    """The byte of the first variable that a tree's triples or expressions name."""
    found = [first_place(child) for child in children(tree)]
    if tree[0] == "pattern":
        found += [slot[1].start for slot in tree[2:] if slot[0] == "variable" and hasattr(slot[1], "start")]
    if tree[0] == "filter":
        found.append(place_of(tree[2]))
    return min((at for at in found if at is not None), default=None)


def place_of(e):
    return min((variable.start for variable in variables_in(e) if hasattr(variable, "start")), default=None)


# ---- pairs of rows


def is_one_row(tree):
    """Whether a tree has one row at most, whatever comes."""
    kind = tree[0]
    if kind == "values":
        return len(tree[1]) < 2
    if kind in ("unit", "group"):
        return kind == "unit" or not tree[2]
    if kind in OF_ONE:
        return is_one_row(tree[1])
    return kind != "pattern" and kind != "union" and all(map(is_one_row, children(tree)))


def parts_of(condition):
    """The conditions that all have to hold."""
    return [part for inner in condition[1] for part in parts_of(inner)] if condition[0] == "and" else [condition]


class Pairs:
    """The nodes of a tree in which more rows meet than have to."""

    def __init__(self, text, names):
        self.text, self.names = text, names

    def of_tree(self, tree, conditions):
        """`conditions` are those of the filters above, of the same braces."""
        kind = tree[0]
        if kind == "filter":
            conditions = [*conditions, *parts_of(tree[2])]
        elif kind not in ("extend", *MATCHED):
            conditions = []
        if kind in MATCHED:
            yield from self.of_sides(tree, conditions)
        for child in children(tree):
            yield from self.of_tree(child, conditions if kind in (*OF_ONE, "join") or child is tree[1] else [])

    def of_sides(self, tree, conditions):
        left, right = tree[1:3]
        if not key(left, right) and not is_by_key_alone(tree) and not any(map(is_one_row, (left, right))):
            if tree[0] != "minus" or possible_variables(left) & possible_variables(right):
                yield self.without_key(tree, conditions)
        elif tree[0] in CONDITIONAL:
            yield from self.of_condition(tree)

    def without_key(self, tree, conditions):
        left, right = (possible_variables(side) for side in tree[1:3])
        joining = [e for e in conditions if tree[0] == "join" and is_of_both(e, left, right)]
        if joining:
            return self.product(joining[0])
        at, shared = first_place(tree[2]) or first_place(tree) or 0, left & right
        said = "no variable is bound in each row of both sides here, so each row meets all rows of the other side"
        write = "a triple that leads from one side to the other, by a variable that both have"
        if shared:
            unsure = shared - (certain_variables(tree[1]) & certain_variables(tree[2]))
            said += f": {self.names.row(unsure)} may be unbound in one"
            write = f"what binds {self.names.row(unsure)} in each row of both, and no OPTIONAL or UNDEF of it before they meet"
        return told(self.text, at, "keyless", said, write)

    def product(self, condition):
        said = f"all pairs of rows are made before {shown(self.names, condition)} takes some of them"
        is_equation = condition[:2] == ("compare", "=") and all(side[0] == "variable" for side in condition[2:4])
        write = "a triple by which both sides share a variable, so that fewer pairs are made"
        if is_equation:
            one, other = (self.names.variable(side[1]) for side in condition[2:4])
            write = f"`{one}` in place of `{other}`, if both are the same term, and no such filter"
        return told(self.text, place_of(condition) or 0, "product", said, write)

    def of_condition(self, tree):
        """A condition is tested on each pair of rows that agree on the key."""
        left, right = (possible_variables(side) for side in tree[1:3])
        for e in parts_of(condition_of(tree) or ("and", [])):
            named, at = set(variables_in(e)), place_of(e)
            if is_of_both(e, left, right):
                said = f"{shown(self.names, e)} is tested on all pairs of rows that agree on {self.names.row(key(*tree[1:3]))}"
                write = "an aggregate by the key, as MAX, in a select within, or a narrower key"
                yield told(self.text, at, "pairs", said, write)
                return
            if tree[0] == "left_join" and named and named <= right - left:
                said = f"{shown(self.names, e)} looks at the optional side alone, and is tested on each pair of rows"
                write = "braces of its own around the triples and this filter, within those of OPTIONAL"
                yield told(self.text, at, "pairs", said, write)
                return


def is_of_both(e, left, right):
    """Whether an expression names what only one side has, and what only the other one has."""
    named = set(variables_in(e))
    return bool(named & (left - right)) and bool(named & (right - left))


def shown(names, e):
    return f"`{names.expression(e)}`"


# ---- rows, and reports


def full(text, tree, sizes):
    """The first node from below that is near the limit of rows."""
    for node in from_below(tree):
        many = sizes.of(node).many
        if many is not None and many > NEAR:
            said = f"this part has some {decimal(round(many))} rows under this load, and {MOST_ROWS} may be"
            yield told(text, first_place(node) or 0, "full", said, "shorter windows, or what has few rows first")
            return


def from_below(tree):
    for child in children(tree):
        yield from from_below(child)
    yield tree


def busy(query, text, policy, windows):
    """A query that reports each millisecond."""
    periods = dict(policy.strategies)
    if policy.is_by_tuple or "CHANGE" in periods:
        return
    steps = [window.slide for window in windows] if "CLOSE" in periods else [1]
    if min(steps) == 1 and periods.get("EVERY", 1) == 1:
        held = " as long as a window holds an item" if "NONEMPTY" in periods else ""
        yield told(text, query["output"].start, "busy", f"it reports each millisecond{held}", write_of(periods))


def write_of(periods):
    if "EVERY" in periods:
        return "EVERY with the span in which a report is wanted, as PT1S"
    if "CLOSE" in periods:
        return "a STEP of the span in which a report is wanted"
    return "`CLOSE AND NONEMPTY`, or an EVERY beside it"
