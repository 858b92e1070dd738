"""What the definitions say of numbers: exact integers and decimals, what literals read as, and what operations give.

None is an error, and a number that there isn't.
"""
import math
import re
import sys
from collections import namedtuple
from fractions import Fraction

from term_model import XSD, Literal

# a text may have up to 65,536 digits in a row; older Pythons have no limit
if hasattr(sys, "set_int_max_str_digits"):
    sys.set_int_max_str_digits(0)

LARGEST = 2 ** 63 - 1
MOST_DIGITS = 18

Number = namedtuple("Number", "is_decimal value")

# of a literal that has the form and no number, and of one that has no form
BEYOND, NO_FORM = "beyond", "no form"
RANGES = {
    b"integer": (-math.inf, math.inf), b"nonPositiveInteger": (-math.inf, 0), b"negativeInteger": (-math.inf, -1),
    b"nonNegativeInteger": (0, math.inf), b"positiveInteger": (1, math.inf),
    b"long": (-2 ** 63, 2 ** 63 - 1), b"int": (-2 ** 31, 2 ** 31 - 1), b"short": (-2 ** 15, 2 ** 15 - 1),
    b"byte": (-128, 127),
    b"unsignedLong": (0, 2 ** 64 - 1), b"unsignedInt": (0, 2 ** 32 - 1), b"unsignedShort": (0, 2 ** 16 - 1),
    b"unsignedByte": (0, 255),
}
INTEGER = re.compile(rb"[+-]?[0-9]+")
DECIMAL = re.compile(rb"([+-]?)(?:([0-9]+)(?:\.([0-9]*))?|\.([0-9]+))")


def integer(value):
    return Number(False, Fraction(value)) if abs(value) <= LARGEST else None


def fit(value):
    """The decimal to which the value is cut, toward zero; none where not even its whole part fits."""
    for scale in range(MOST_DIGITS, -1, -1):
        size = int(abs(value) * 10 ** scale)
        if size <= LARGEST:
            return Number(True, Fraction(size if value > 0 else -size, 10 ** scale))
    return None


def decimal_reading(text):
    found = DECIMAL.fullmatch(text)
    if not found:
        return NO_FORM
    behind = found[3] or found[4] or b""
    size = Fraction(int((found[2] or b"") + behind), 10 ** len(behind))
    value = -size if found[1] == b"-" else size
    number = fit(value)
    return number if number and number.value == value else BEYOND


def reading(term):
    """What a literal of a numeric type reads as; None of every other term."""
    if not isinstance(term, Literal) or not term.datatype.startswith(XSD):
        return None
    kind = term.datatype[len(XSD):]
    if kind == b"decimal":
        return decimal_reading(term.lexical)
    if kind not in RANGES:
        return None
    least, greatest = RANGES[kind]
    if not INTEGER.fullmatch(term.lexical) or not least <= int(term.lexical) <= greatest:
        return NO_FORM
    return integer(int(term.lexical)) or BEYOND


def number_of(term):
    found = reading(term)
    return found if isinstance(found, Number) else None


def literal_of(number):
    """The literal that a result with this number is; None of an error."""
    if number is None:
        return None
    if not number.is_decimal:
        return Literal(b"%d" % int(number.value), XSD + b"integer")
    scale = next(s for s in range(MOST_DIGITS + 1) if (number.value * 10 ** s).denominator == 1)
    digits = str(abs(int(number.value * 10 ** scale))).zfill(scale + 1)
    text = digits[:-scale] + "." + digits[-scale:] if scale else digits
    return Literal((("-" if number.value < 0 else "") + text).encode(), XSD + b"decimal")


def calculated(sign, left, right):
    """What a sign of arithmetic gives of two numbers."""
    if sign == "/":
        return fit(left.value / right.value) if right.value else None
    value = {"+": left.value + right.value, "-": left.value - right.value, "*": left.value * right.value}[sign]
    return fit(value) if left.is_decimal or right.is_decimal else integer(value)
