"""Values that aren't exact, or of which no order is known, where a query compares them or calculates with them."""
from decimal import Decimal, InvalidOperation

from .findings import Finding
from .pages import TOOLS, page_of
from .places import quoted
from .uses import CALCULATED, EQUATED, OF_DOUBLES, ORDERED, RANKED, SUMMED, Expressions, predicates_into

XSD = "http://www.w3.org/2001/XMLSchema#"
DOUBLES = {XSD + name: f"xsd:{name}" for name in ("double", "float")}
DATES = {XSD + name: f"xsd:{name}" for name in (
    "dateTime date time dateTimeStamp gYear gYearMonth gMonth gMonthDay gDay duration dayTimeDuration yearMonthDuration"
).split()}
SORTS_OF_DOUBLES, SORTS = frozenset(DOUBLES.values()), frozenset([*DOUBLES.values(), *DATES.values()])


def sort_of(datatype, how):
    """The name of a datatype with which this can't be done, or None."""
    return DOUBLES.get(datatype) or (None if how in OF_DOUBLES else DATES.get(datatype))


def inexact(query, text, values):
    """Constants, then values that the files or the log have where the query looks: each place of the text once."""
    expressions, told = Expressions(query), set()
    for use in expressions.uses:
        for operand in [use.operand] if use.operand[0] == "constant" else expressions.sources(use.operand[1]):
            finding = None
            if operand[0] == "constant":
                finding = of_constant(use, operand, text)
            elif values:
                finding = of_values(use, operand[1], expressions, text, values)
            if finding and finding.place not in told:
                told.add(finding.place)
                yield finding


WHY = {
    ORDERED: "a comparison with it is an error, so no row passes", CALCULATED: "what is calculated with it is an error",
    SUMMED: "a sum or an average with it among its values is unbound", EQUATED: "`=` with it is an error, so no row passes",
    RANKED: "MIN and MAX take it by its text and not by its value",
}


def of_constant(use, operand, text):
    term = operand[1]
    sort = sort_of(term[2], use.how) if term and term[0] == "literal" else None
    if sort is None:
        return None
    is_date = sort in DATES.values()
    said = f"{quoted(term[1])} is an {sort}, which {'has no order' if is_date else 'is not exact'}: {WHY[use.how]}"
    write = f"write {NUMBERS if is_date else as_decimal(term[1])}"
    return Finding(text.place(term[1].start), "inexact", said, write, page_of(TOOLS, "inexact"))


NUMBERS = "times as numbers, as milliseconds since 1970, here and where they come from"


def as_decimal(lexical):
    """The number that a double's text says, written out."""
    try:
        value = Decimal(str(lexical))
        return f"the decimal, `{value:f}`" if value.is_finite() and abs(value.adjusted()) < 40 else "a decimal"
    except InvalidOperation:
        return "a decimal"


def of_values(use, variable, expressions, text, values):
    """The first pattern at which the files or the log have such values for the variable."""
    for pattern, spot, way in expressions.patterns:
        for predicate in predicates_into(way) if pattern == variable else []:
            found = values.of(spot, predicate, SORTS_OF_DOUBLES if use.how in OF_DOUBLES else SORTS)
            if found:
                start = getattr(use.operand[1], "start", None) or variable.start
                return told_of_values(use, text.place(start), found, predicate)
    return None


def told_of_values(use, place, found, predicate):
    where = f"at {quoted(f'<{predicate}>')}" if predicate else "at any predicate"
    file, line, _ = found.first
    is_date = found.sort in DATES.values()
    said = (
        f"{found.many} of {found.total} values {where} {'have no order' if is_date else 'are not exact'}, "
        f"as the {found.sort} of {file}:{line}: {WHY[use.how]}"
    )
    write = f"write {NUMBERS}" if is_date else "write xsd:decimal where they come from, or `STRDT(STR(..), xsd:decimal)` here"
    return Finding(place, "inexact", said, write, page_of(TOOLS, "inexact"))
