"""Spans that aren't written as here: those of other languages, in words, in small letters or without their `T`."""
import re
from decimal import Decimal

from query_model import is_span

UNITS = {
    "ms": ("ms", "milli", "millis", "millisecond", "milliseconds"), "S": ("s", "sec", "secs", "second", "seconds"),
    "M": ("m", "min", "mins", "minute", "minutes"), "H": ("h", "hr", "hrs", "hour", "hours"), "D": ("d", "day", "days"),
    "W": ("w", "week", "weeks"), "long": ("mo", "month", "months", "y", "yr", "year", "years"),
}
SECONDS = {"ms": Decimal("0.001"), "S": 1, "M": 60, "H": 3600, "D": 86400, "W": 604800}
IN_WORDS = re.compile(r"""(?i)(?:interval\s*)?["']?\s*([0-9]{1,12}(?:\.[0-9]{1,3})?)\s*["']?\s*([a-z]*)""")
ISO = re.compile(r"""(?ix)["']?P(?:([0-9]{1,12})Y)?(?:([0-9]{1,12})M(?!S))?(?:([0-9]{1,12})W)?(?:([0-9]{1,12})D)?
    (?:T?(?:([0-9]{1,12})H)?(?:([0-9]{1,12})M)?(?:([0-9]{1,12}(?:\.[0-9]+)?)S)?)(?![A-Za-z0-9])""")
NO_LENGTH = "months and years have no length"


def meant_at(text):
    """What to write in place of what stands at the front of a text where a span is wanted; None where that isn't seen."""
    found = ISO.match(text)
    if found and any(found.groups()):
        return of_iso(*found.groups())
    found = IN_WORDS.match(text)
    return found and of_words(Decimal(found[1]), found[2].lower())


def of_iso(years, months, weeks, days, hours, minutes, seconds):
    if years or months:
        minute = f"`PT{months}M` for minutes; " if months and not years else ""
        return f"{minute}{NO_LENGTH}, so write days, as `P{365 * int(years or 0) + 30 * int(months or 0)}D`"
    whole_days = 7 * int(weeks or 0) + int(days or 0)
    clock = "".join(f"{value}{unit}" for value, unit in ((hours, "H"), (minutes, "M"), (seconds, "S")) if value)
    return in_backquotes(f"P{f'{whole_days}D' if whole_days else ''}{f'T{clock}' if clock else ''}")


def of_words(number, word):
    """A number with a unit in words; one alone is taken for seconds."""
    unit = next((unit for unit, words in UNITS.items() if word in words), None if word else "S")
    if unit is None:
        return None
    if unit == "long":
        days = int(number * (365 if word.startswith("y") else 30))
        return f"`P{days}D`: {NO_LENGTH}"
    if unit in ("ms", "W") or number != int(number):
        return in_backquotes(of_seconds(number * SECONDS[unit]))
    return in_backquotes(f"P{'' if unit == 'D' else 'T'}{int(number)}{unit}")


def of_seconds(seconds):
    days = int(seconds) // 86400
    return f"P{days}D" if days and seconds == 86400 * days else f"PT{f'{seconds:.3f}'.rstrip('0').rstrip('.')}S"


def in_backquotes(span):
    return f"`{span}`" if is_span(span) else None
