"""Days to draw: random ones that the programs run, and made-up ones of any length."""

import math
import random
import xml.etree.ElementTree as ElementTree

from common import day_of, tank
import picture
import programs
import records
import report
import turns


def random_day(seed, layers, heaters, steps, length=1.0, refused=0.05):
    chance = random.Random(seed)
    lines = [tank(layers=layers, length=length)]
    for _ in range(heaters):
        rated, position, thermostat = chance.randint(1, 3), chance.random() * 0.99, chance.random() * 0.99
        form = "heater rated power %d kW, position %.2f of height, thermostat %.2f of height\n"
        lines.append(form % (rated, position, thermostat))
    for _ in range(steps):
        parts = ["step feed %s C" % ("nan" if chance.random() < refused else "10")]
        if chance.random() < 0.2:
            parts.append("draws %d %d litres" % (chance.randint(1, 40), chance.randint(1, 40)))
        for place in range(heaters):
            lower = chance.randint(40, 55)
            points = ["none", "upper %d C" % lower, "lower %d C upper %d C" % (lower, lower + 8)]
            parts.append("heater %d %s" % (place, chance.choice(points)))
        lines.append(", ".join(parts) + "\n")
    return day_of("".join(lines))


def outcome(day):
    job, count = records.job_bytes(day), len(day.steps)
    result = report.read_report(programs.lines_of("job", job, count), day.working_order())
    return result, turns.read_history(programs.lines_of("history", job, count))


# Set points that draw the numbers of set points.
FAULTS = {8: (45.0, None), 12: (math.nan, 60.0), 13: (70.0, 60.0)}


def made_up(seed, layers, heaters, steps, length=0.5, low=5.0, high=80.0, refused=0.02, kinds=(7, 8)):
    """A day of any length with figures from nowhere: a picture is to show what it is given."""
    chance = random.Random(seed)
    day = records.Day(records.Tank(layers, 150.0, 1.5, (low + high) / 2, 1.0, 0.001163, 18.0, length), [], [])
    for index in range(heaters):
        day.heaters.append(records.Heater(1.0, index / heaters, chance.random() * 0.99))
    told, turned, pool = [], [], [[chance.uniform(low, high) for _ in range(layers)] for _ in range(97)]
    lines = [report.Line(flag, 1.0, flag * 1.0, 0.1, 1) for flag in (False, False, True)]
    for index in range(steps):
        number = 0 if chance.random() >= refused else chance.choice(kinds)
        volumes = [30.0, 10.0] if chance.random() < 0.1 else []
        points = [(45.0 - index // 5 % 2, 60.0 + index // 3 % 2)] * heaters
        if number in FAULTS:
            points[index % heaters] = FAULTS[number]
        day.steps.append(records.Step(10.0, volumes, points))
        totals = None if number else report.Totals(0.0, 0.0, 50.0, 0.1)
        flags = {} if number else {place: chance.choice(lines) for place in range(heaters)}
        told.append(report.StepReport(index, number, totals, chance.choice(pool), flags))
        turn = [turns.Turn(place, low, high, 45.0, 60.0, False, False, 0.0, 1) for place in flags]
        turned.append(turns.StepTurns(index, number, turn))
    return day, report.Report(told, None), turns.History(turned, None)


def drawn(day, result, history, title="A day"):
    return ElementTree.fromstring(picture.picture(day, result, history, title))
