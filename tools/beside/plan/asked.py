"""The words of `plan`: its own options, and then those of the program."""
import re
from collections import namedtuple
from fractions import Fraction

import model

from ..words import WrongWords, parsed, stream

# `begin` is the instant from which reports are told, `rates` are loads by their streams, `stored` is how many quads are stored
Asked = namedtuple("Asked", "words begin rates stored")
# so many items a second, of so many triples each; both are exact
Rate = namedtuple("Rate", "items triples")
OPTIONS = ("--from", "--rate", "--stored")
NUMBER = "[0-9]{1,9}(?:[.][0-9]{1,9})?"


def asked(words):
    """What the words ask for; WrongWords for all others. Options of the plan stand anywhere before `--`."""
    rest, values = taken(words)
    begins, stored = values["--from"], values["--stored"]
    if len(begins) > 1 or len(stored) > 1:
        raise WrongWords
    rates = dict(map(rate, values["--rate"]))
    if len(rates) < len(values["--rate"]):
        raise WrongWords
    return Asked(parsed(rest), *(begin(word) for word in begins or [None]), rates, *(count(word) for word in stored or [None]))


def taken(words):
    """The words of the program, and the values of each option of the plan."""
    rest, values, coming = [], {name: [] for name in OPTIONS}, iter(words)
    for word in coming:
        name, has_value, value = word.partition("=")
        if word == "--":
            rest += [word, *coming]
        elif name in values:
            values[name].append(value if has_value else next(coming, ""))
        else:
            rest.append(word)
    return rest, values


def begin(word):
    """An instant, as a number or a date; None without a word."""
    if word is None:
        return None
    time = model.time_of(word.encode("utf-8", "surrogateescape"))
    if time is None:
        raise WrongWords
    return time


def rate(word):
    """`STREAM=NxM`: N items a second of M triples, each at most nine digits before the dot and behind it."""
    name, _, numbers = word.rpartition("=")
    found = re.fullmatch(f"({NUMBER})x({NUMBER})", numbers)
    if not found or not Fraction(found[1]):
        raise WrongWords
    # a stream is named as in `run`, where a file stands behind the sign
    return stream(f"{name}=x").name, Rate(Fraction(found[1]), Fraction(found[2]))


def count(word):
    if word is None:
        return None
    if not re.fullmatch("[0-9]{1,9}", word):
        raise WrongWords
    return int(word)
