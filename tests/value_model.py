"""What the definitions say of values: expressions in a row, aggregates, the order of terms.

A row binds numbers of variables to terms. None is an error wherever a value is wanted.
`python3 tests/value_model.py --rows` compares expressions with values that were worked out by hand.
"""
import math
import re
import sys
from fractions import Fraction

import query_model
from number_model import NO_FORM, Number, calculated, fit, integer, literal_of, number_of, reading
from term_model import LANG_STRING, XSD, XSD_STRING, Blank, Iri, Literal, Tagged, printed

# ---- booleans, strings and texts


def string(text):
    return Literal(text if isinstance(text, bytes) else text.encode(), XSD_STRING)


def boolean(truth):
    return None if truth is None else Literal(b"true" if truth else b"false", XSD + b"boolean")


def boolean_of(term):
    """The value of a boolean with the form."""
    if not isinstance(term, Literal) or term.datatype != XSD + b"boolean":
        return None
    return {b"true": True, b"1": True, b"false": False, b"0": False}.get(term.lexical)


def string_of(term):
    """The text of an xsd:string."""
    return term.lexical if isinstance(term, Literal) and term.datatype == XSD_STRING else None


def truth_of(term):
    """The boolean value."""
    if isinstance(term, Tagged) or string_of(term) is not None:
        return term.lexical != b""
    if isinstance(term, Literal) and term.datatype == XSD + b"boolean":
        return boolean_of(term) or False
    found = reading(term)
    return found.value != 0 if isinstance(found, Number) else False if found == NO_FORM else None


def is_literal(term):
    return isinstance(term, (Literal, Tagged))


def is_inexact(term):
    return isinstance(term, Literal) and term.datatype in (XSD + b"double", XSD + b"float")


# ---- operators


def any_true(truths):
    return True if True in truths else None if None in truths else False


def all_true(truths):
    return False if False in truths else None if None in truths else True


def negated(truth):
    return None if truth is None else not truth


def comparable(term):
    """By what a literal is compared, with its kind."""
    for kind, found in [("number", number_of(term)), ("string", string_of(term)), ("boolean", boolean_of(term))]:
        if found is not None:
            # the bytes of UTF-8 stand as the code points do
            return kind, found.value if kind == "number" else found
    return None


def equal(left, right):
    if left is None or right is None or is_inexact(left) or is_inexact(right):
        return None
    a, b = comparable(left), comparable(right)
    if a and b and a[0] == b[0]:
        return a == b
    return True if left == right else None if is_literal(left) and is_literal(right) else False


def compared(sign, left, right):
    if sign in ("=", "!="):
        return equal(left, right) if sign == "=" else negated(equal(left, right))
    a, b = left and comparable(left), right and comparable(right)
    if not a or not b or a[0] != b[0]:
        return None
    return {"<": a[1] < b[1], ">": a[1] > b[1], "<=": a[1] <= b[1], ">=": a[1] >= b[1]}[sign]


# ---- functions of terms. An argument of another kind makes the result an error: its reader gives None, `of` passes that on.


def of(change, *arguments):
    return None if None in arguments else change(*arguments)


def text_of(term):
    """The characters of a string or of a literal with a tag, and the tag."""
    if isinstance(term, Tagged):
        return term.lexical.decode(), term.language
    return of(lambda text: (text.decode(), None), string_of(term))


def text(characters, tag):
    return string(characters) if tag is None else Tagged(characters.encode(), tag)


def of_texts(change):
    """A function of two compatible texts."""
    def on_both(a, b):
        return change(a, b) if b[1] is None or a[1] == b[1] else None
    return lambda left, right: of(on_both, text_of(left), text_of(right))


def tests_texts(test):
    return of_texts(lambda a, b: boolean(test(a[0], b[0])))


def cuts_text(cut):
    """The part that `cut` gives, with the first text's tag; the empty string where the second doesn't occur."""
    return of_texts(lambda a, b: text(cut(a[0], b[0]), a[1]) if b[0] in a[0] else string(""))


def whole_number(term):
    number = number_of(term)
    return int(number.value) if number and not number.is_decimal else None


def substring(whole, start, count):
    """The characters from a place on, counted from 1, so many as the count or all."""
    def chosen(characters, first, end):
        return text("".join(c for p, c in enumerate(characters[0], 1) if p >= first and p < end), characters[1])
    first = whole_number(start)
    end = math.inf if count is None else of(lambda a, b: a + b, first, whole_number(count))
    return of(chosen, text_of(whole), first, end)


def concatenated(*terms):
    texts = [text_of(term) for term in terms]
    if None in texts:
        return None
    tags = {tag for _, tag in texts}
    return text("".join(characters for characters, _ in texts), tags.pop() if len(tags) == 1 else None)


def matches(tag, wanted):
    if wanted == b"*":
        return tag != b""
    return tag.lower() == wanted.lower() or tag.lower().startswith(wanted.lower() + b"-")


def iri_in(characters):
    is_good = re.fullmatch(rb'[A-Za-z][A-Za-z0-9+.-]*:[^\x00-\x20<>"{}|^`\\]*', characters)
    return Iri(characters) if is_good else None


def iri_of(term):
    return term if isinstance(term, Iri) else of(iri_in, string_of(term))


def rounded(to_whole):
    return lambda term: literal_of(of(lambda n: n._replace(value=Fraction(to_whole(n.value))), number_of(term)))


def typed(lexical, datatype):
    is_good = isinstance(datatype, Iri) and datatype.name != LANG_STRING
    return of(lambda found: Literal(found, datatype.name) if is_good else None, string_of(lexical))


def tagged(lexical, tag):
    def made(found, language):
        return Tagged(found, language) if re.fullmatch(rb"[A-Za-z]+(?:-[A-Za-z0-9]+)*", language) else None
    return of(made, string_of(lexical), string_of(tag))


FUNCTIONS = {
    "SAMETERM": lambda a, b: boolean(a == b),
    "ISIRI": lambda a: boolean(isinstance(a, Iri)),
    "ISURI": lambda a: boolean(isinstance(a, Iri)),
    "ISBLANK": lambda a: boolean(isinstance(a, Blank)),
    "ISLITERAL": lambda a: boolean(is_literal(a)),
    "ISNUMERIC": lambda a: None if is_inexact(a) else boolean(number_of(a) is not None),
    "STR": lambda a: string(a.name) if isinstance(a, Iri) else string(a.lexical) if is_literal(a) else None,
    "LANG": lambda a: string(a.language) if isinstance(a, Tagged) else string(b"") if isinstance(a, Literal) else None,
    "DATATYPE": lambda a: Iri(a.datatype) if is_literal(a) else None,
    "IRI": iri_of,
    "URI": iri_of,
    "STRDT": typed,
    "STRLANG": tagged,
    "STRLEN": lambda a: of(lambda found: literal_of(integer(len(found[0]))), text_of(a)),
    "SUBSTR": lambda a, start, count=None: substring(a, start, count),
    "CONTAINS": tests_texts(lambda a, b: b in a),
    "STRSTARTS": tests_texts(lambda a, b: a.startswith(b)),
    "STRENDS": tests_texts(lambda a, b: a.endswith(b)),
    "STRBEFORE": cuts_text(lambda a, b: a[:a.index(b)]),
    "STRAFTER": cuts_text(lambda a, b: a[a.index(b) + len(b):]),
    "CONCAT": concatenated,
    "LANGMATCHES": lambda tag, wanted: of(lambda a, b: boolean(matches(a, b)), string_of(tag), string_of(wanted)),
    "ABS": rounded(abs),
    "CEIL": rounded(math.ceil),
    "FLOOR": rounded(math.floor),
    "ROUND": rounded(lambda value: math.floor(value + Fraction(1, 2))),
}

# ---- expressions


def term_of(node):
    """The term of a constant of a query's text."""
    kind, *fields = node
    return {"iri": Iri, "literal": Literal, "tagged": Tagged}[kind](*(field.encode() for field in fields))


def truths(parts, row):
    return [of(truth_of, value(part, row)) for part in parts]


def called(name, arguments, row):
    if name == "IF":
        condition = of(truth_of, value(arguments[0], row))
        return of(lambda truth: value(arguments[1 if truth else 2], row), condition)
    values = [value(argument, row) for argument in arguments]
    if name == "COALESCE":
        return next((found for found in values if found is not None), None)
    return of(FUNCTIONS[name], *values)


def signed(sign, term):
    if sign == "!":
        return boolean(negated(of(truth_of, term)))
    number = of(number_of, term)
    return literal_of(number and number._replace(value=-number.value if sign == "-" else number.value))


def value(e, row):
    """The value of an expression in a row; None is an error, and so is a variable that isn't bound."""
    kind = e[0]
    if kind == "variable":
        return row.get(e[1])
    if kind == "constant":
        return term_of(e[1])
    if kind == "bound":
        return boolean(e[1] in row)
    if kind in ("or", "and"):
        return boolean((any_true if kind == "or" else all_true)(truths(e[1], row)))
    if kind == "compare":
        return boolean(compared(e[1], value(e[2], row), value(e[3], row)))
    if kind == "member":
        item = value(e[2], row)
        found = any_true([equal(item, value(part, row)) for part in e[3]])
        return boolean(negated(found) if e[1] else found)
    if kind == "arithmetic":
        left, right = (of(number_of, value(part, row)) for part in e[2:])
        return literal_of(of(lambda a, b: calculated(e[1], a, b), left, right))
    if kind == "signed":
        return signed(e[1], value(e[2], row))
    return called(e[1], e[2], row)


def is_true(e, row):
    """Whether the row passes: an error doesn't."""
    return of(truth_of, value(e, row)) is True


def variables_in(e):
    """The variables that an expression names, in the order of the text."""
    kind = e[0]
    if kind in ("variable", "bound"):
        return [e[1]]
    if kind == "constant":
        return []
    parts = {"or": e[1:2], "and": e[1:2], "member": [e[2:3], *e[3:4]], "call": e[2:3]}.get(kind, [e[2:]])
    return [v for some in parts for part in some for v in variables_in(part)]


# ---- the order of terms, and aggregates


def place_in_order(term):
    """What the order of terms goes by."""
    number = number_of(term)
    rank = 0 if isinstance(term, Blank) else 1 if isinstance(term, Iri) else 2 if number else 3
    return rank, number.value if number else 0, printed(term)


def sum_of(numbers):
    total = sum((number.value for number in numbers), Fraction(0))
    return fit(total) if any(number.is_decimal for number in numbers) else integer(total)


def average_of(numbers):
    if not numbers:
        return integer(0)
    return of(lambda total: calculated("/", total, integer(len(numbers))), sum_of(numbers))


def aggregate(kind, is_distinct, argument, rows):
    """The value of an aggregate over the rows of a group."""
    if argument is None:
        return literal_of(integer(len(rows)))
    values = [value(argument, row) for row in rows]
    if is_distinct:
        values = list(dict.fromkeys(values))
    if kind == "COUNT":
        return literal_of(integer(sum(found is not None for found in values)))
    if None in values:
        return None
    if kind in ("MIN", "MAX"):
        return (min if kind == "MIN" else max)(values, key=place_in_order) if values else None
    numbers = [number_of(found) for found in values]
    return None if None in numbers else literal_of((sum_of if kind == "SUM" else average_of)(numbers))


# ---- rows

X = "<http://www.w3.org/2001/XMLSchema#%s>"
ROWS = [
    ('SUBSTR("motor car", 6)', '" car"'),
    ('"abc"@en = "abc"', None),
    ("1 IN (2, 1/0, 1)", '"true"^^' + X % "boolean"),
    ("1 IN (2, 1/0)", None),
    ("1/0 IN ()", '"false"^^' + X % "boolean"),
    ("CEIL(-7/2)", '"-3"^^' + X % "decimal"),
    ("false && 1/0", '"false"^^' + X % "boolean"),
    ("true && 1/0", None),
    ("10 / 3", '"3.333333333333333333"^^' + X % "decimal"),
    ("100 / 3", '"33.33333333333333333"^^' + X % "decimal"),
    ("-1 / 3", '"-0.333333333333333333"^^' + X % "decimal"),
    ("6 / 2", '"3"^^' + X % "decimal"),
    ("9223372036854775807 + 1", None),
    ("ROUND(-2.5)", '"-2"^^' + X % "decimal"),
    ("+'05'^^" + X % "byte", '"5"^^' + X % "integer"),
    ("'200'^^" + X % "byte" + " + 1", None),
    ("'1.'^^" + X % "decimal" + " + '.5'^^" + X % "decimal", '"1.5"^^' + X % "decimal"),
    ("0.1234567890123456789 + 0", None),
    ("0.1 + 0.2 = 0.3", '"true"^^' + X % "boolean"),
    ("-0.0", '"0"^^' + X % "decimal"),
    ("1e0 = <a:1>", None),
    ("<a:1> = 'a:1'", '"false"^^' + X % "boolean"),
    ("'yes'^^" + X % "boolean" + " = 'yes'^^" + X % "boolean", '"true"^^' + X % "boolean"),
    ("!99999999999999999999", None),
    ("!'x'^^" + X % "integer", '"true"^^' + X % "boolean"),
    ("isNumeric(<a:1>)", '"false"^^' + X % "boolean"),
    ("isNumeric(1e0)", None),
    ("STRBEFORE('abc'@en, 'b')", '"a"@en'),
    ("STRBEFORE('abc'@en, 'z')", '""'),
    ("STRAFTER('abc'@en, '')", '"abc"@en'),
    ("STRAFTER('abc', 'b'@en)", None),
    ("CONCAT('a'@en, 'b'@EN)", '"ab"'),
    ("CONCAT()", '""'),
    ("SUBSTR('12345', 0, 3)", '"12"'),
    ("SUBSTR('12345', 1.0)", None),
    ("SUBSTR('ab', 9223372036854775807, 9223372036854775807)", '""'),
    ("LANGMATCHES('en-GB', 'EN')", '"true"^^' + X % "boolean"),
    ("LANGMATCHES('', '*')", '"false"^^' + X % "boolean"),
    ("IF(1/0, 1, 2)", None),
    ("IF(1, 2, 1/0)", '"2"^^' + X % "integer"),
    ("COALESCE(1/0, ?x, 7)", '"7"^^' + X % "integer"),
    ("COALESCE()", None),
    ("IRI('a b:')", None),
    ("IRI('a:b')", "<a:b>"),
    ("STRDT('5', <http://www.w3.org/1999/02/22-rdf-syntax-ns#langString>)", None),
    ("STRLANG('5', 'e1')", None),
    ("STRLEN('\u00e9t\u00e9')", '"3"^^' + X % "integer"),
]
HEAD = "REGISTER RSTREAM <q:o> AS SELECT * FROM NAMED WINDOW <w:1> ON <s:a> [RANGE PT1S] { BIND("


def printed_value(written):
    """The printed value of an expression as it is written, where no variable is bound."""
    body = query_model.parse(HEAD + written + " AS ?y) }")["select"]["body"]
    return of(lambda term: printed(term).decode(), value(body[0][2], {}))


def main():
    failed = [(e, wanted, printed_value(e)) for e, wanted in ROWS if printed_value(e) != wanted]
    for e, wanted, given in failed:
        print(f"{e}: wanted {wanted}, given {given}")
    print(f"{len(ROWS) - len(failed)} passed, {len(failed)} failed")
    return int(bool(failed))


if __name__ == "__main__":
    sys.exit(main())
