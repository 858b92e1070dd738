"""Faults at a token of a text, 7 to 9: what stands there, why it can't, and what could."""
import unicodedata

import model
import query_model
from query_model import FUNCTIONS, LEFT_OUT, said, tokens_of

from .looks import Looked, Sign
from .places import quoted
from .stands import kinds_at, reading_of


def of_wrong_bytes(content):
    at = model.valid_front(content)
    return Looked(f"7 BadToken at={at}", at, "these bytes aren't UTF-8", Sign("7", "bytes"))


def of_bad_token(text, at):
    reading = reading_of(tokens_of(text.encode()[:at].decode()))
    character = text.encode()[at:].decode()[0]
    sign = Sign("7", sort_of_character(character))
    said_here = f"{quoted(character)} {'opens a string that does not end' if character in QUOTES else 'begins no token'}"
    return Looked(f"7 BadToken at={at}", at, said_here, sign, reading and kinds_at(reading))


QUOTES = "\"'"


def sort_of_character(character):
    """Signs of ASCII are themselves, all others what Unicode says of them, opening and closing quotation marks as one."""
    return character if character.isascii() else unicodedata.category(character).replace("Pf", "Pi")


def of_syntax(text, at):
    """A token that can't stand, or an end that is too early."""
    tokens = tokens_of(text)
    reading = reading_of(token for token in tokens if token.end <= at)
    there = next((token for token in tokens if token.start == at), None)
    before = [sort_of(said(token)) for token in tokens if token.end <= at]
    behind = [sort_of(said(token)) for token in tokens if token.start > at]
    could = kinds_at(reading)
    if there is None:
        sign = Sign("8", "end", before, (), could)
        return Looked(f"8 Syntax at={at}", at, "the text ends here, and isn't finished", sign, could)
    wrong = query_model.wrong(text, there)
    what = sort_in(reading, said(there))
    if wrong.args[0] == "LeftOut":
        is_word = there.text.upper() in LEFT_OUT
        sign = Sign("9", there.text.upper(), before, behind, could)
        said_here = f"{quoted(there.text)} is a {'word' if is_word else 'sign'} of SPARQL that can't stand here"
    else:
        sign, said_here = Sign("8", what, before, behind, could), f"{quoted(there.text)} can't stand here{reason(reading, there)}"
    return Looked(model.text_refusal(*wrong.args), at, said_here, sign, could)


def sort_of(said_here):
    """What a token is known by: its kind, or for a call and an aggregate what sort of word it is."""
    if said_here.kind in FUNCTIONS:
        return "a function"
    if said_here.kind in ("COUNT", "SUM", "AVG", "MIN", "MAX"):
        return "an aggregate"
    return "Iri" if said_here.kind == "Prefixed" else said_here.kind


def sort_in(reading, said_here):
    """The same of a token that can't stand: an undeclared prefix and an IRI that isn't absolute are known by that."""
    if said_here.kind == "Prefixed" and reading.seen(said_here).kind == "Nowhere":
        return "undeclared"
    if said_here.kind == "Nowhere":
        return "relative" if said_here.token.kind == "Iri" else "a word"
    return sort_of(said_here)


def reason(reading, there):
    """Why a token can stand nowhere, or not here, where that isn't seen."""
    seen = reading.seen(said(there))
    if there.kind == "Prefixed" and seen.kind == "Nowhere":
        return f", since no PREFIX declares {quoted(there.text.split(':')[0] + ':')}"
    if there.kind == "Iri" and seen.kind == "Nowhere":
        return ", since it isn't absolute"
    if there.kind == "Word" and seen.kind == "Nowhere":
        return ", since it is no word of a query"
    if there.kind == "Variable" and "Variable" in kinds_at(reading):
        return ", since it stands before it in the same VALUES"
    return ""
