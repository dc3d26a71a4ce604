"""The refusals, in the words of document 01, and of 02 for positions and set points; and of these whose they are."""

import math

from text import decimal

WORDS = {
    1: "The layers are none or more than 32.",
    2: "The heaters are more than 8.",
    3: "Volume, density, specific heat (kWh/kg.K) or step length (hours) is not finite and above zero.",
    4: "Standby loss (kWh per 24 h), initial, ambient or a stored layer temperature is not finite, "
    "or the standby loss is below zero.",
    5: "A rated power (kW) is not finite or is below zero, "
    "or a heater or thermostat position is not at least 0, or is above 1.",
    6: "A step has more than 64 draw events, or not one set-point entry for each heater.",
    7: "The feed temperature, or an event's volume, is not finite, or the volume is below zero.",
    8: "The lower set point comes without the upper.",
    9: "A mixing is not in nondecreasing order after 64 rounds.",
    10: "Not finite: a layer, or energy or volume used so far, after an event; "
    "a layer or its figures after a heater's turn; average or recoverable at the end.",
    11: "A job record is cut short, of unknown kind or length, misplaced, has a presence byte outside its values, "
    "or follows more than 8 heaters.",
    12: "A present set point is not finite.",
    13: "The lower set point is greater than the upper.",
}
OF_SET_POINTS = (12, 8, 13)  # of one heater in this order; the first faulty heater, as given, decides (02, R-1)


def words(number):
    return WORDS.get(number, "unknown refusal")


def fault(points):
    """The number that one heater's set points draw, and those that are to blame; or 0."""
    there = [(name, value) for name, value in zip(("lower", "upper"), points) if value is not None]
    not_finite = [pair for pair in there if not math.isfinite(pair[1])]
    lower, upper = points
    if not_finite:
        return 12, not_finite
    if lower is not None and upper is None:
        return 8, there
    if lower is not None and lower > upper:
        return 13, there
    return 0, []


def first_fault(step):
    """The number, the heater and the set points to blame, of the first heater as given that has a fault; or 0."""
    for place, points in enumerate(step.points):
        number, blamed = fault(points)
        if number:
            return number, place, blamed
    return 0, None, []


def words_for(number, step):
    """Why this step was refused: for set points also whose they are, and what was asked, as in a text."""
    if number not in OF_SET_POINTS:
        return words(number)
    _, place, blamed = first_fault(step)
    asked = " ".join("%s %s C" % (name, decimal(value)) for name, value in blamed)
    return "%s: heater %d %s." % (words(number).rstrip("."), place, asked)


def words_for_all(number, steps):
    """Why these steps were refused with one number: for set points also which heaters' they are."""
    if number not in OF_SET_POINTS:
        return words(number)
    places = sorted({first_fault(step)[1] for step in steps})
    named = ", ".join("%d" % place for place in places)
    return "%s: heater%s %s." % (words(number).rstrip("."), "s" if len(places) > 1 else "", named)
