"""The rows of the tables say what to write in names of their own. Here it is said in those of the text that has the mistake."""
import re
from collections import namedtuple

from query_model import FUNCTIONS, Refused, tokens_of

MOST_NEAR = 12
CALLS = ("COUNT", "SUM", "AVG", "MIN", "MAX", *FUNCTIONS)
# kinds that count as one, and those whose texts are names
KINDS = {"Prefixed": "Iri", "Integer": "Number", "Decimal": "Number", "Double": "Number"}
NAMES = ("Variable", "Iri", "Number", "String", "Call", "Comparison")
COMPARISONS = ("=", "!=", "<", ">", "<=", ">=")
# the tokens before a place and behind it, nearest first, the first key of a GROUP BY, and the first prefix that is declared
Near = namedtuple("Near", "before behind key prefix")
Piece = namedtuple("Piece", "kind text")


def near(text, at):
    """What stands near the byte of a text. Where it can't be read as tokens, what stands before."""
    content = text.encode()
    try:
        tokens = tokens_of(text)
    except Refused as why:
        tokens = tokens_of(content[:why.args[1]].decode())
    before = [piece(token) for token in tokens if token.end <= at][-MOST_NEAR:]
    behind = [piece(token) for token in tokens if token.start >= at][:MOST_NEAR]
    words = [token.text.upper() for token in tokens]
    keys = [token.text for token, by, group in zip(tokens[2:], words[1:], words) if (group, by) == ("GROUP", "BY")]
    prefixes = [token.text for token, word in zip(tokens[1:], words) if word == "PREFIX" and token.kind == "Prefixed"]
    return Near(before[::-1], behind, next(iter(keys), None), next(iter(prefixes), None))


def piece(token):
    word = token.text.upper()
    if word in COMPARISONS:
        return Piece("Comparison", word)
    return Piece("Call", word) if token.kind == "Word" and word in CALLS else Piece(KINDS.get(token.kind, token.kind), token.text)


def in_its_names(write, row, its):
    """What a row of the tables says to write, with the names that stand in the text where they stand in the row's."""
    names = {**paired(row.before, its.before), **paired(row.behind, its.behind)}
    return re.sub("`([^`]+)`", lambda found: f"`{renamed(found[1], names, row, its)}`", write)


def paired(of_row, of_text):
    """The names of the row with those of the text, as far as both have the same tokens but for names."""
    found = {}
    for ours, theirs in zip(of_row, of_text):
        is_star = ours.kind == "Variable" and theirs.text == "*"
        is_same = ours.kind == theirs.kind and (ours.kind in NAMES or ours.text.upper() == theirs.text.upper())
        if not is_star and not is_same:
            break
        if ours.kind in NAMES:
            found.setdefault(ours.text, theirs.text)
    return found


def renamed(written, names, row, its):
    """A text of the row in other names. What isn't paired is a key, where it is one of the row, or has another prefix."""
    def one(found):
        name = found[0]
        if name in names:
            return names[name]
        if name == row.key and its.key and its.key[0] in "?$":
            return its.key
        if name.startswith("ex:") and its.prefix != "ex:":
            return f"{its.prefix}{name[3:]}" if its.prefix else f"<http://example.org/{name[3:]}>"
        return name
    return names.get(written) or re.sub(r"\?\w+|ex:\w+|\"[^\"]*\"|\b(?:[0-9]+|[A-Z]+)\b|(?<= )>(?= )", one, written)
