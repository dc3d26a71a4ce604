"""The tank from the side: a band for each layer, the top layer at the top, and where heaters and thermostats sit."""

import math

from picture.colours import BAR_HEIGHT, WARMEST, colour, scale_bar
from picture.frame import KEY, LEFT, RIGHT, axis_name, frame_box
from picture.svg import GREY, HEATERS, INK, PALE, Scale, box, element, line, place, runs, words
from table import layer_names

BAR = KEY + 148  # where the scale of colours stands: beside the fittings of eight heaters
BAR_TOP = 24


def shown(values):
    """Of the steps that share a column the coldest, so that no cold water is hidden; but above 90 C shows too."""
    return max(values) if max(values) > WARMEST else min(values)


def band_paths(frame, top, row):
    """One path for each colour, of lines as wide as a layer is high: they meet, so that no seam shows."""
    by_colour = {}
    for down, layer in enumerate(reversed(range(frame.day.tank.layers))):
        temperatures = frame.columns([step.layers[layer] for step in frame.report.steps])
        middle = place(top + (down + 0.5) * row)
        for first, last, paint in runs([colour(shown(some)) for some in temperatures]):
            left, right = place(frame.edges[first]), place(frame.edges[last + 1])
            by_colour.setdefault(paint, []).append("M%s %sH%s" % (left, middle, right))
    out = []
    for paint, pieces in sorted(by_colour.items()):
        stroke = dict(stroke=paint, stroke_width=row, shape_rendering="crispEdges")
        out.append(element("path", d="".join(pieces), class_="band", **stroke))
    return out


def names(layers, top, row):
    """A name for every layer, or for every few where rows are low; the bottom always has one."""
    out, every = [], max(1, math.ceil(14 / row))
    for down, name in enumerate(layer_names(layers)):
        last = down == layers - 1
        if last or down % every == 0 and row * (layers - 1 - down) >= 14:
            out.append(words(LEFT - 6, top + (down + 0.5) * row + 4, name, 12, text_anchor="end", fill=INK))
    return out


def circle(x, y):
    return element("circle", cx=float(x), cy=float(y), r=4, fill="#ffffff", stroke=INK, stroke_width=1.8)


def key_top(tank_bottom):
    """Where the keys begin: below the tank and below the scale of colours."""
    return max(tank_bottom, BAR_TOP + BAR_HEIGHT) + 17


def fittings(frame, top, height):
    """An upright line for each heater: a square at the heater's height, a circle at its thermostat's."""
    out, scale = [], Scale(0.0, 1.0, top + height, top)
    for index, heater in enumerate(frame.day.heaters):
        x = KEY + 7 + index * 18
        thermostat = heater.position if heater.thermostat is None else heater.thermostat
        # Above the tank, and clear of what sits in its lid.
        name = min(top - 6, scale(max(heater.position, thermostat)) - 9)
        out.append(words(x, name, "h%d" % index, 11, text_anchor="middle", fill=INK))
        out.append(line(x, top, x, top + height, stroke=PALE, stroke_width=2))
        out.append(box(x - 6, scale(heater.position) - 6, 12, 12, fill=HEATERS[index % len(HEATERS)]))
        out.append(circle(x, scale(thermostat)))
    if frame.day.heaters:
        y = key_top(top + height)
        out += [box(KEY + 1, y - 10, 11, 11, fill=GREY), words(KEY + 18, y, "heater", 12, fill=INK)]
        out += [circle(KEY + 80, y - 4), words(KEY + 90, y, "thermostat", 12, fill=INK)]
    return out


def bands(frame, top, row):
    """`row` is the height of a layer."""
    layers = frame.day.tank.layers
    height = row * layers
    out = band_paths(frame, top, row) + names(layers, top, row)
    out += [frame_box(top, height), axis_name("tank", top, height)]
    return out + scale_bar(BAR, BAR_TOP) + fittings(frame, top, height)
