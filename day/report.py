"""The lines that the program job prints, as numbers (docs/JOB_FORMAT.md, What is printed)."""

import struct
from collections import namedtuple

import progress
import refusals

Totals = namedtuple("Totals", "energy volume average recoverable")
Line = namedtuple("Line", "flag adjusted supplied losses rounds")
# A refused step has no totals (None) and no heater lines; `heaters` has each heater's line by its place in the file.
StepReport = namedtuple("StepReport", "index number totals layers heaters")
# `ended`: the number and the offset of a refusal outside a step, or None
Report = namedtuple("Report", "steps ended")


class WrongOutput(Exception):
    pass


def double(digits):
    if len(digits) != 16:
        raise ValueError(digits)
    return struct.unpack(">d", bytes.fromhex(digits))[0]


def read_report(lines, order, name="job"):
    """`order` is the heaters' working order: the lines `H` of a step come so. `name` is the program that printed."""
    steps, ended = [], None
    for at, line in enumerate(lines):
        progress.at(at)
        try:
            if ended:
                raise ValueError(line)
            ended = read_line(line, steps, order)
        except (ValueError, IndexError, TypeError):
            raise WrongOutput("%s: a line that cannot be read: '%s'" % (name, line)) from None
    return Report(steps, ended)


def read_line(line, steps, order):
    """Adds to the steps what a line says; the answer is what a line `E` says."""
    kind, *parts = line.split(" ")
    if kind == "S":
        totals = Totals(*map(double, parts[2:])) if len(parts) > 2 else None
        steps.append(StepReport(int(parts[0]), int(parts[1]), totals, [], {}))
    elif kind == "L":
        steps[-1].layers.extend(map(double, parts))
    elif kind == "H":
        place = order[len(steps[-1].heaters)]
        steps[-1].heaters[place] = Line(parts[0] == "1", *map(double, parts[1:4]), int(parts[4]))
    elif kind == "E":
        return int(parts[0]), int(parts[1])
    else:
        raise ValueError(kind)
    return None


def check_steps(told, day, name):
    """What a program told, held to the day: its steps in order and no others; all of them, or a reason why not."""
    for place, step in enumerate(told.steps):
        if step.index != place:
            raise WrongOutput("%s failed: step %d stands where step %d is due" % (name, step.index, place))
    count, due = len(told.steps), len(day.steps)
    if count > due:
        raise WrongOutput("%s failed: it tells of %d steps, and the day has %d" % (name, count, due))
    if count < due and told.ended is None:
        raise WrongOutput("%s failed: it ended after %d of %d steps and says nothing of why" % (name, count, due))
    for told_step, asked in zip(told.steps, day.steps):
        number = told_step.number
        if number in refusals.OF_SET_POINTS and refusals.first_fault(asked)[0] != number:
            raise WrongOutput("%s failed: step %d has no set points that draw %d" % (name, told_step.index, number))


def check_report(report, day, name):
    """Each step has all its figures."""
    check_steps(report, day, name)
    for step in report.steps:
        heaters = len(day.heaters) if step.number == 0 else 0
        full = (step.totals is None) == (step.number != 0) and len(step.layers) == day.tank.layers
        if not full or len(step.heaters) != heaters:
            raise WrongOutput("%s failed: step %d of %d is not whole" % (name, step.index, len(day.steps)))
