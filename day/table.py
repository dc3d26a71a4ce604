"""What a day's steps came to, as a table in rounded decimals or as CSV with every digit."""

import csv
import io
import textwrap

import clock
from records import record_at
from refusals import words, words_for
from text import decimal

WIDE = 80


# Numbers


def rounded(value, places):
    """Fixed places, so that columns line up; what would not fit so is written with an exponent."""
    if value != value or abs(value) >= 1e7:
        return "%.3e" % value
    text = "%.*f" % (places, value)
    return text.lstrip("-") if float(text) == 0 else text


def degrees(value):
    return rounded(value, 2)


def energy(value):
    return rounded(value, 4)


def layer_names(count):
    """From the top down; layer 0 is the bottom."""
    names = ["L%d" % layer for layer in reversed(range(count))]
    if count > 1:
        names[0], names[-1] = "top", "bottom"
    return names


# A table: groups of columns, each column a heading, a unit and cells


def lay_out(groups, spans=None):
    """The lines of a table. `spans` says where one text takes the place of a group's cells: (row, group) to text."""
    widths = [[max(map(len, [heading, unit] + cells)) for heading, unit, cells in columns] for _, columns in groups]
    for inner, outer in ((2, 3), (2, 2), (1, 2)):
        between = inner * sum(len(group) - 1 for group in widths) + outer * (len(groups) - 1)
        if sum(map(sum, widths)) + between <= WIDE:
            break

    def joined(pieces):
        """Each group's text, filled up to the group's width."""
        rooms = [sum(group) + inner * (len(group) - 1) for group in widths]
        return (" " * outer).join(piece.ljust(room) for piece, room in zip(pieces, rooms)).rstrip()

    def cells_line(pick):
        rows = [[pick(c).rjust(w) for c, w in zip(columns, group)] for (_, columns), group in zip(groups, widths)]
        return [(" " * inner).join(row) for row in rows]

    lines = [joined([title for title, _ in groups])]
    lines += [joined(cells_line(lambda column, part=part: column[part])) for part in (0, 1)]
    for row in range(len(groups[0][1][0][2])):
        pieces = cells_line(lambda column, row=row: column[2][row])
        lines.append(joined([(spans or {}).get((row, place), piece) for place, piece in enumerate(pieces)]))
    return lines


def steps_table(day, report):
    steps = report.steps
    begin = [("step", "", ["%d" % step.index for step in steps])]
    length = day.tank.step_length
    begin.append((clock.heading(length), "", [clock.begin(step.index, length) for step in steps]))
    totals = []
    for name, heading, unit, show in (
        ("energy", "energy", "kWh", energy),
        ("volume", "volume", "litres", degrees),
        ("average", "average", "C", degrees),
        ("recoverable", "recov.", "kWh", energy),
    ):
        totals.append((heading, unit, [show(getattr(step.totals, name)) if step.totals else "" for step in steps]))
    layers = []
    for place, name in enumerate(layer_names(day.tank.layers)):
        layers.append((name, "C", [degrees(step.layers[-1 - place]) for step in steps]))
    groups = [("", begin), ("totals", totals), ("layers", layers)]
    flags = []
    for place in day.working_order():
        flags.append(("h%d" % place, "", [flag_word(step, place) for step in steps]))
    spans = {(row, 1): "refused %d" % step.number for row, step in enumerate(steps) if step.number}
    return lay_out(groups + ([("flags", flags)] if flags else []), spans)


def flag_word(step, place):
    if step.totals is None:
        return ""
    return "on" if step.heaters[place].flag else "off"


def heaters_table(day, report):
    steps = [step for step in report.steps if step.totals]
    groups = [("", [("step", "", ["%d" % step.index for step in steps])])]
    for place in day.working_order():
        lines = [step.heaters[place] for step in steps]
        columns = []
        for name in ("adjusted", "supplied", "losses"):
            columns.append((name, "kWh", [energy(getattr(line, name)) for line in lines]))
        columns.append(("rounds", "", ["%d" % line.rounds for line in lines]))
        groups.append(("heater %d" % place, columns))
    return lay_out(groups)


# Words around the tables


def wrapped(text, first="", rest=None):
    rest = " " * len(first) if rest is None else rest
    return textwrap.wrap(text, WIDE, initial_indent=first, subsequent_indent=rest, break_on_hyphens=False)


def heater_words(heater):
    thermostat = ", thermostat at %s" % decimal(heater.thermostat) if heater.thermostat is not None else ""
    return "%s kW at %s of height%s" % (decimal(heater.rated), decimal(heater.position), thermostat)


def tank_words(tank):
    layers = "%d layer%s" % (tank.layers, "s" if tank.layers != 1 else "")
    hours = "hour" if tank.step_length == 1.0 else "hours"
    return "%s, %s litres, step length %s %s" % (layers, decimal(tank.volume), decimal(tank.step_length), hours)


def numbers(values):
    """Runs of step numbers: 3 to 5, 9."""
    runs = []
    for value in values:
        if runs and runs[-1][1] == value - 1:
            runs[-1][1] = value
        else:
            runs.append([value, value])
    return ", ".join("%d" % a if a == b else "%d%s%d" % (a, ", " if b == a + 1 else " to ", b) for a, b in runs)


def refused_words(day, report):
    """Each refused step under the words of its refusal."""
    alike = {}
    for step in report.steps:
        if step.number:
            alike.setdefault((step.number, words_for(step.number, day.steps[step.index])), []).append(step.index)
    lines = []
    for (number, told), indexes in sorted(alike.items(), key=lambda pair: (pair[0][0], pair[1])):
        which = "step%s %s" % ("s" if len(indexes) > 1 else "", numbers(indexes))
        lines += wrapped("Refused, %s: refusal %d. %s" % (which, number, told), "", "  ")
    return lines


def ended_words(day, report):
    """Why not every step was run, if so: a refusal outside a step."""
    if not report.ended:
        return ""
    number, offset = report.ended
    index = record_at(day, offset)
    where = "byte %d" % offset
    if day.lines and index is not None:
        where = "line %d (byte %d of its job)" % (day.lines[index], offset)
    return "The job ended at %s: refusal %d. %s" % (where, number, words(number))


def table(day, report, name):
    lines = [name, "  tank: %s" % tank_words(day.tank)]
    for place, heater in enumerate(day.heaters):
        lines.append("  h%d: %s" % (place, heater_words(heater)))
    if report.steps:
        when = clock.heading(day.tank.step_length)
        lines += ["", "After each step (%s: where it begins; flags and heaters in working order):" % when, ""]
        lines += steps_table(day, report)
        refused = refused_words(day, report)
        lines += [""] + refused if refused else []
    if day.heaters and any(step.totals for step in report.steps):
        lines += ["", "Heaters, accepted steps:", ""] + heaters_table(day, report)
    ended = ended_words(day, report)
    if ended:
        lines += [""] + wrapped(ended)
    elif not report.steps:
        lines += ["", "No steps."]
    return "".join(line + "\n" for line in lines)


def comma_separated(day, report):
    out = io.StringIO()
    rows = csv.writer(out, lineterminator="\n")
    layers = list(reversed(range(day.tank.layers)))
    order = day.working_order()
    totals = ["energy kWh", "volume litres", "average C", "recoverable kWh"]
    figures = ["flag", "adjusted kWh", "supplied kWh", "losses kWh", "rounds"]
    heading = ["step", "hour", "refusal", "refusal in words"] + totals + ["layer %d C" % layer for layer in layers]
    heading += ["heater %d %s" % (place, figure) for place in order for figure in figures]
    rows.writerow(heading + ["clock"])
    for step in report.steps:
        row = ["%d" % step.index, decimal(step.index * day.tank.step_length), "%d" % step.number]
        row.append(words_for(step.number, day.steps[step.index]) if step.number else "")
        row += [decimal(value) for value in step.totals] if step.totals else [""] * 4
        row += [decimal(step.layers[layer]) for layer in layers]
        for place in order:
            if step.totals:
                flag, adjusted, supplied, losses, rounds = step.heaters[place]
                row += ["%d" % flag, decimal(adjusted), decimal(supplied), decimal(losses), "%d" % rounds]
            else:
                row += [""] * 5
        rows.writerow(row + [clock.on_the_clock(step.index, day.tank.step_length) or ""])
    return out.getvalue()
