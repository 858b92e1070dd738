"""What a query does with which values: comparisons, calculations and aggregates, and the patterns from which the values come."""
from collections import namedtuple

from query_model import groups_in

# what is done with a value, in words; the last two are wrong of doubles alone
ORDERED, CALCULATED, SUMMED, EQUATED, RANKED = "compared", "calculated with", "summed up", "compared by =", "ranked by its text"
OF_DOUBLES = (EQUATED, RANKED)
# the functions whose value is a number where that of their argument is one
OF_NUMBERS = ("ABS", "CEIL", "FLOOR", "ROUND")
# `partners` are the expressions with which a value is compared; what is calculated with or summed up has none
Use = namedtuple("Use", "how operand partners")


def operands(e):
    """The constants and variables whose terms the expression may have as its value."""
    if e[0] in ("variable", "constant"):
        return [e]
    if e[0] == "call" and e[1] in ("COALESCE", "IF"):
        return [found for part in e[2][1 if e[1] == "IF" else 0:] for found in operands(part)]
    return []


def parts_of(e):
    """The expressions within one, what is done with their values, or None, and with what they are compared."""
    kind = e[0]
    if kind == "compare":
        how = ORDERED if e[1] in ("<", ">", "<=", ">=") else EQUATED
        return [(e[2], how, [e[3]]), (e[3], how, [e[2]])]
    if kind == "member":
        return [(e[2], EQUATED, e[3]), *((part, EQUATED, [e[2]]) for part in e[3])]
    if kind == "arithmetic":
        return [(part, CALCULATED, []) for part in e[2:4]]
    if kind == "signed":
        return [(e[2], None if e[1] == "!" else CALCULATED, [])]
    if kind == "call":
        return [(part, CALCULATED if e[1] in OF_NUMBERS else None, []) for part in e[2]]
    return [(part, None, []) for part in e[1]] if kind in ("or", "and") else []


def uses_in(e):
    for part, how, partners in parts_of(e):
        yield from (Use(how, found, partners) for found in operands(part) if how)
        yield from uses_in(part)


def uses_of_aggregate(kind, argument):
    how = {"SUM": SUMMED, "AVG": SUMMED, "MIN": RANKED, "MAX": RANKED}.get(kind)
    if argument is not None:
        yield from (Use(how, found, []) for found in operands(argument) if how)
        yield from uses_in(argument)


def tested_as_number(e):
    """The variables of which an expression asks whether they are numbers."""
    own = [found[1] for found in operands(e[2][0]) if found[0] == "variable"] if e[:2] == ("call", "ISNUMERIC") else []
    return own + [variable for part, *_ in parts_of(e) for variable in tested_as_number(part)]


class Expressions:
    """All expressions of a query: what is done with which operand, and which variables are made of which others."""

    def __init__(self, query):
        self.uses, self.made, self.given, self.patterns = [], {}, {}, []
        # those that are counts, sums or means, and those that are asked whether they are numbers
        self.numbers, self.tested = set(), set()
        self.of_select(query["select"], ("default",), {clause["name"]: clause["stream"] for clause in query["windows"]})

    def of_select(self, select, spot, streams):
        self.of_group(select["body"], spot, streams)
        for place, kind, _, argument in select["aggregates"]:
            self.uses += uses_of_aggregate(kind, argument)
            if kind in ("COUNT", "SUM", "AVG"):
                self.numbers.add(place)
            if kind in ("MIN", "MAX"):
                self.made.setdefault(place, []).extend(operands(argument))
        for variable, e in [*select["keys"], *select["items"]]:
            self.of_made(variable, e)
        self.uses += uses_in(select["having"]) if select["having"] else []

    def of_made(self, variable, e):
        if e:
            self.uses += uses_in(e)
            self.made.setdefault(variable, []).extend(operands(e))

    def of_group(self, body, spot, streams):
        for part in body:
            if part[0] == "triple" and part[3][0] == "variable":
                self.patterns.append((part[3][1], spot, part[2]))
            elif part[0] == "filter":
                self.uses += uses_in(part[1])
                self.tested.update(tested_as_number(part[1]))
            elif part[0] == "bind":
                self.of_made(part[1], part[2])
            elif part[0] == "values":
                for cells in part[2]:
                    for variable, cell in zip(part[1], cells):
                        self.given.setdefault(variable, []).append(("constant", cell))
            elif part[0] == "sub":
                self.of_select(part[1], spot, streams)
            for inner in groups_in(part):
                self.of_group(inner, spot_in(part, spot, streams), streams)

    def sources(self, variable, seen=()):
        """The variables whose terms this one may have, itself among them, and the constants."""
        found = [("variable", variable), *self.given.get(variable, [])]
        for operand in self.made.get(variable, []):
            if operand[0] == "constant":
                found.append(operand)
            elif operand[1] not in seen:
                found += self.sources(operand[1], (*seen, variable))
        return found


def spot_in(part, spot, streams):
    """Where the triples in the braces of a part are looked for."""
    if part[0] == "window":
        return "stream", streams.get(part[1])
    if part[0] == "graph":
        return ("any",) if part[1][0] == "variable" else ("named", part[1][1][1])
    return spot


def ends_of(way, is_forward=True):
    """The predicates at an end of a path, its last one or its first one, and whether that end is the object of their triples.

    A variable as predicate is None.
    """
    kind, inner = way
    if kind == "step":
        return [(None if isinstance(inner, tuple) else inner, is_forward)]
    if kind == "inverse":
        return ends_of(inner, not is_forward)
    if kind == "choice":
        return [found for one in inner for found in ends_of(one, is_forward)]
    return ends_of(inner[-1 if is_forward else 0], is_forward)


def predicates_into(way):
    """The predicates of whose triples the end of a path is the object."""
    return [predicate for predicate, is_object in ends_of(way) if is_object]
