"""Numbers and their units in a text. A unit that is not the job's own is converted exactly, and then rounded once."""

import re
from decimal import Decimal
from fractions import Fraction

NUMBER = re.compile(r"[+-]?([0-9]+(\.[0-9]*)?|\.[0-9]+)([eE][+-]?[0-9]+)?|[+-]?inf|nan", re.IGNORECASE)

HOUR, MINUTE, WATT = Fraction(1), Fraction(1, 60), Fraction(1, 1000)

# The units of a job, and how else they may be written: each spelling with what one of it is in the job's unit.
SPELLINGS = {
    "litres": {"litres": 1, "litre": 1, "l": 1, "L": 1},
    "C": {"C": 1, "°C": 1, "degC": 1},
    "kW": {"kW": 1, "W": WATT},
    "hours": {"hours": HOUR, "hour": HOUR, "h": HOUR, "min": MINUTE, "minute": MINUTE, "minutes": MINUTE},
}


class Unfit(Exception):
    """What is wrong with a line, before its number is known."""


def spellings(unit):
    return SPELLINGS.get(unit, {unit: 1})


def form(name, unit):
    """How a field is written: `rated power NUMBER kW or W`."""
    if unit is None:
        return "%s WHOLE-NUMBER" % name
    others = {1: unit}
    for spelling, factor in spellings(unit).items():
        others.setdefault(factor, spelling)
    return "%s NUMBER%s %s" % (name, " NUMBER ..." if name == "draws" else "", " or ".join(others.values()))


def take_unit(words, unit):
    """The words before the unit that ends them, and what one of it is in the job's unit; None if none is there."""
    for spelling, factor in spellings(unit).items():
        parts = spelling.split()
        if words[-len(parts) :] == parts:
            return words[: -len(parts)], factor
    for spelling, factor in sorted(spellings(unit).items(), key=lambda item: -len(item[0])):
        # Without a space between: 58°C. The longest spelling first, for C ends °C too.
        if words and words[-1].endswith(spelling) and words[-1][0] in "+-.0123456789":
            return words[:-1] + [words[-1][: -len(spelling)]], factor
    return None


def number(word, factor=1):
    """The double nearest to a decimal times a factor."""
    if not NUMBER.fullmatch(word):
        raise Unfit("expected a number such as 12.5, -3, 1e-3, nan, inf or -inf, found '%s'" % word)
    value = float(word)
    if "inf" in word.lower() or value != value:
        return value
    try:
        value = value if factor == 1 else converted(word, factor)
    except OverflowError:
        value = float("inf")
    if abs(value) == float("inf"):
        raise Unfit("expected a number that a double can hold, found '%s'; infinity is written inf" % word)
    return value


def converted(word, factor):
    """The division of two whole numbers is rounded once, to the nearest double; a zero keeps its sign."""
    digits, _, power = word.lower().partition("e")
    far = len(power.lstrip("+-0")) > 9 or abs(int(power or 0)) > len(digits) + 1000
    if far or not digits.strip("+-.0"):
        # No conversion moves a zero, nor brings so large a power of ten back to where doubles are.
        return float(word)
    return float(Fraction(Decimal(word)) * factor)
