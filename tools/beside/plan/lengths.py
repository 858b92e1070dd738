"""Spans of time and numbers in words."""
import math
from fractions import Fraction

UNITS = (("d", 86_400_000), ("h", 3_600_000), ("min", 60_000))


def lasting(milliseconds):
    """A span, exactly: in the largest unit of which it is a multiple, else in seconds."""
    for unit, size in UNITS:
        if milliseconds % size == 0 and milliseconds >= size:
            return f"{milliseconds // size} {unit}"
    return f"{decimal(Fraction(milliseconds, 1000))} s"


def about(milliseconds):
    """A span as two units say it, rounded down."""
    for place, (unit, size) in enumerate(UNITS):
        if milliseconds >= size:
            whole, rest = divmod(int(milliseconds), size)
            smaller, of_smaller = (*UNITS, ("s", 1000))[place + 1]
            return f"{whole} {unit} {rest // of_smaller} {smaller}" if rest >= of_smaller else f"{whole} {unit}"
    return f"{decimal(Fraction(int(milliseconds), 1000))} s"


def decimal(number):
    """A number, of a large one its whole part, else three digits behind the dot, or more where it is small."""
    if number == int(number) or number >= 1000:
        return str(int(number))
    return f"{float(number):.{digits_of(number)}f}".rstrip("0").rstrip(".")


def at_most(number):
    """The same rounded down, so that a limit that is told is none that is passed."""
    if number == int(number) or number >= 1000:
        return str(int(number))
    digits = digits_of(number)
    whole, rest = divmod(math.floor(number * 10**digits), 10**digits)
    return f"{whole}.{rest:0{digits}}".rstrip("0").rstrip(".")


def digits_of(number):
    return 3 if number >= 1 else 3 - math.floor(math.log10(number))


def size(megabytes):
    """So much memory, in words."""
    if megabytes < 1:
        return "less than 1 MB"
    return f"some {round(megabytes)} MB" if megabytes < 1000 else f"some {decimal(Fraction(round(megabytes / 100), 10))} GB"
