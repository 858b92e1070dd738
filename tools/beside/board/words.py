"""The words of the board."""
import re
from typing import FrozenSet, NamedTuple

from ..words import WrongWords

USAGE = (
    "usage: ./rsp events --json < LOG | tools/board [--port N] [--points N] [--rows N] [--title TEXT]"
    " [--news NAME].. [--alarm NAME].. [--pass] [--once]"
)
# an option with a number, and the least and the most that it takes
NUMBERS = {"--port": (0, 65_535), "--points": (1, 10_000), "--rows": (1, 10_000)}
NAMES = ("--news", "--alarm")
FLAGS = ("--pass", "--once")
NAME_OF_QUERY = re.compile("[A-Za-z0-9_-]{1,64}")
MOST_TITLE = 200


class Words(NamedTuple):
    """What the words ask for. A port of 0 is any that is free; `alarms` are news too."""

    port: int = 8734
    points: int = 300
    rows: int = 200
    title: str = "Reports"
    news: FrozenSet[str] = frozenset()
    alarms: FrozenSet[str] = frozenset()
    passes: bool = False
    once: bool = False


class WrongWord(WrongWords):
    """A word is none that the board has, for the reason that is told."""


def parsed(words):
    """What the words ask for; WrongWord for all others. An option that takes no query's name stands at most once."""
    given, names = {}, {option: set() for option in NAMES}
    rest = iter(words)
    for word in rest:
        option, has_value, value = word.partition("=")
        if option in given:
            raise WrongWord(f"`{option}` stands twice")
        if option in FLAGS and not has_value:
            given[option] = True
        elif option in NUMBERS or option in NAMES or option == "--title":
            take(option, value if has_value else next(rest, None), given, names)
        else:
            raise WrongWord(f"there is no word `{word}`")
    return Words(
        **{option[2:]: given[option] for option in ("--port", "--points", "--rows", "--title", "--once") if option in given},
        passes="--pass" in given, news=frozenset(names["--news"] | names["--alarm"]), alarms=frozenset(names["--alarm"])
    )


def take(option, value, given, names):
    """Takes the value of an option."""
    if value is None:
        raise WrongWord(f"nothing stands behind `{option}`")
    if option in NAMES:
        names[option].add(name_of_query(option, value))
    else:
        given[option] = title(value) if option == "--title" else number(option, value)


def name_of_query(option, value):
    if not NAME_OF_QUERY.fullmatch(value):
        raise WrongWord(f"`{option}` takes a query's name, 1 to 64 of letters, digits, `_` and `-`, and not `{value}`")
    return value


def title(value):
    if not 0 < len(value) <= MOST_TITLE:
        raise WrongWord(f"`--title` takes a text of 1 to {MOST_TITLE} signs")
    return value.encode("utf-8", "surrogateescape").decode("utf-8", "replace")


def number(option, value):
    least, most = NUMBERS[option]
    if not re.fullmatch("[0-9]{1,20}", value) or not least <= int(value) <= most:
        raise WrongWord(f"`{option}` takes a number from {least} to {most}, and not `{value}`")
    return int(value)
