"""Values that are no numbers, where a query takes them for numbers: strings, IRIs and texts with a tag."""
from number_model import number_of
from value_model import term_of

from .findings import Finding
from .pages import TOOLS, page_of
from .places import quoted
from .uses import CALCULATED, EQUATED, OF_NUMBERS, ORDERED, SUMMED, Expressions, predicates_into
from .values import UNLIKE

WHY = {
    ORDERED: "a comparison of it with a number is an error, so no row passes", EQUATED: "it is equal to no number",
    CALCULATED: "what is calculated with it is an error", SUMMED: "a sum or an average with it among its values is unbound",
}


def unlike(query, text, values):
    """Each place at which the query takes a variable for a number, whose values in the files or the log aren't all numbers."""
    meant = Meant(Expressions(query), values)
    told = set()
    for use in meant.expressions.uses:
        finding = of_use(use, meant, text) if use.operand[0] == "variable" and meant.as_number(use) else None
        if finding and finding.place not in told:
            told.add(finding.place)
            yield finding


class Meant:
    """What a query takes for a number, by its text and by the values that there are."""

    def __init__(self, expressions, values):
        self.expressions, self.values = expressions, values

    def as_number(self, use):
        """Whether the value is calculated with, added up, or compared with a number, and not asked whether it is one."""
        if use.how not in WHY or use.operand[1] in self.expressions.tested:
            return False
        return not use.partners or all(map(self.is_number, use.partners))

    def is_number(self, e):
        """Whether an expression has a number as its value, as far as its form and the values say it."""
        if e[0] == "constant":
            return number_of(term_of(e[1])) is not None
        if e[0] == "variable":
            return e[1] in self.expressions.numbers or next(self.found(e[1], True), None) is not None
        return e[0] == "arithmetic" or (e[0] == "signed" and e[1] != "!") or (e[0] == "call" and e[1] in (*OF_NUMBERS, "STRLEN"))

    def found(self, variable, are_numbers):
        """Where the variable has its values from, a variable and a predicate, with what is there that is a number, or is none."""
        for source in self.expressions.sources(variable):
            for pattern, spot, way in self.expressions.patterns:
                for predicate in predicates_into(way) if source == ("variable", pattern) else []:
                    found = predicate and self.values.of(spot, predicate, [None] if are_numbers else UNLIKE)
                    if found:
                        yield source[1], predicate, found


def of_use(use, meant, text):
    """The finding at the first predicate at which values are no numbers, or None."""
    source, predicate, found = next(meant.found(use.operand[1], False), (None, None, None))
    if not found:
        return None
    # an aggregate has no place of its own
    start = getattr(use.operand[1], "start", None) or source.start
    file, line, _ = found.first
    said = (
        f"{found.many} of {found.total} values at {quoted(f'<{predicate}>')} are no numbers, "
        f"as the {found.sort} of {file}:{line}: {WHY[use.how]}"
    )
    write = "write a number where they come from, or `STRDT(STR(..), xsd:decimal)` here"
    return Finding(text.place(start), "unlike", said, write, page_of(TOOLS, "unlike"))
