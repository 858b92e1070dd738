"""What could stand at a place of a text: the ways that the grammar has there, each tested with one token of each kind."""
from query_model import FUNCTIONS, KEYWORDS, Reading, Said, Token, said

SYMBOLS = "{ } ( ) [ ] . ; , | || && = != < > <= >= + - * / ^ ^^ ! ?".split()
# a token of each kind that has a value
OTHERS = {
    "Iri": "http://example.org/a", "Label": "a", "Variable": "a variable that no text has", "Span": "PT10S", "Tag": "en",
    "Double": "1e0", "Decimal": "1.5", "Integer": "1", "String": "2026-01-01T00:00:00Z",
}


def token_of(kind, value=None, text=""):
    return Said(kind, value, Token("", text, 0, 0))


EACH = [token_of(kind) for kind in ["a", *KEYWORDS, *SYMBOLS]] + [token_of(kind, value) for kind, value in OTHERS.items()]
DECLARED = token_of("Prefixed", ("ex", ""), "ex:")


def reading_of(tokens):
    """The reading of the tokens; None where they can't be read."""
    reading = Reading()
    return reading if all(reading.take(said(there)) for there in tokens) else None


def kinds_at(reading):
    """The kinds of tokens that could go on here; `end` is the end of the text."""
    if reading.last == "PREFIX":
        return frozenset(["Prefix"] if reading.ways_behind(DECLARED) else [])
    kinds = [each.kind for each in EACH if any(is_way(way, each) for way in reading.ways)]
    return frozenset(kinds + (["end"] if reading.whole() is not None else []))


def is_way(way, each):
    return hasattr(way, "test") and way.test(each)


# ---- in words. A group of kinds that all could stand is one thing; what is left is named token by token.

CALLS = frozenset(["BOUND", *FUNCTIONS])
LITERALS = frozenset(["String", "Integer", "Decimal", "Double", "TRUE", "FALSE"])
FOLDS = frozenset(["COUNT", "SUM", "AVG", "MIN", "MAX"])
GROUPS = [
    ("an expression, as `?x + 1`", CALLS | LITERALS | {"Variable", "Iri", "(", "!", "-", "+"}),
    ("an expression without a sign in front, as `?x`", CALLS | LITERALS | {"Variable", "Iri", "("}),
    ("an aggregate, as `COUNT(*)`", FOLDS),
    ("a function, as `BOUND(?x)`", CALLS),
    ("a comparison, as `> 30`", frozenset("= != < > <= >= NOT IN".split())),
    ("a sign of arithmetic, `+`, `-`, `*` or `/`", frozenset("+-*/")),
    ("a further element of the group, as `WINDOW`, `GRAPH`, `OPTIONAL`, `FILTER`, `BIND`, `VALUES`, `MINUS` or `{`",
     frozenset("WINDOW GRAPH OPTIONAL FILTER BIND VALUES MINUS {".split())),
    ("a number, a string, `true` or `false`", LITERALS),
    ("an operator, `RSTREAM`, `ISTREAM` or `DSTREAM`", frozenset(["RSTREAM", "ISTREAM", "DSTREAM"])),
    ("a strategy, `CLOSE`, `CHANGE`, `NONEMPTY` or `EVERY` with a span",
     frozenset(["CLOSE", "CHANGE", "NONEMPTY", "EVERY"])),
    ("a time, as `0` or `\"2026-01-01T00:00:00Z\"`", frozenset(["Integer", "String"])),
]
ONE = {
    "Iri": "an IRI, as `<http://example.org/a>` or `ex:a`", "Label": "a label, as `_:x`", "Variable": "a variable, as `?x`",
    "Span": "a span, as PT10S", "Tag": "a tag, as `@en`", "Double": "a double", "Decimal": "a decimal",
    "Integer": "an integer", "String": "a string", "Prefix": "a prefix, as `ex:`", "end": "the end of the text",
}


def in_words(kinds):
    """One sentence that names all kinds of tokens that could stand."""
    names, left = [], set(kinds)
    for name, group in GROUPS:
        if group <= left:
            names.append(name)
            left -= group
    names += [ONE[kind] for kind in ONE if kind in left]
    names += [f"`{each.kind}`" for each in EACH if each.kind in left and each.kind not in ONE]
    if not names:
        return "nothing could stand here"
    if len(names) == 1:
        first, _, example = names[0].partition(", as ")
        return f"{first} could stand here" + (f", as {example}" if example else "")
    return f"here could stand {'; '.join(names[:-1])}; or {names[-1]}"
