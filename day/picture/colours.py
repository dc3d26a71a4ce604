"""The colours of temperatures: one scale for all pictures, from 0 to 90 C, a colour for each degree, and two ends."""

import math

from picture.svg import INK, Scale, blend, box, element, line, words

COLDEST, WARMEST = 0, 90
BELOW, ABOVE = "url(#below)", "url(#above)"
# Cold is dark and hot is bright, so the order shows without hue too (the map plasma of matplotlib, every eighth of it).
TEMPERATURES = ["#0d0887", "#4c02a1", "#7e03a8", "#a82296", "#cb4679", "#e56b5d", "#f89441", "#fdc328", "#f0f921"]


COUNT = WARMEST - COLDEST
# Whole tenths for a degree, as coordinates are written, so that no seam shows; and the two ends.
BAR_HEIGHT = 1.4 * COUNT + 2 * 15
DEGREES = [blend(TEMPERATURES, (index + 0.5) / COUNT) for index in range(COUNT)]


def colour(temperature):
    """The same for a temperature in every picture; 90 C itself is still on the scale."""
    if temperature < COLDEST:
        return BELOW
    if temperature > WARMEST:
        return ABOVE
    return DEGREES[min(math.floor(temperature - COLDEST), COUNT - 1)]


def pattern(name, ground, marks, size=4):
    tile = box(0, 0, size, size, fill=ground) + marks
    return element("pattern", tile, id=name, width=size, height=size, patternUnits="userSpaceOnUse")


def ends():
    """Snow on black below the scale, level lines on white above it: told from all colours, in print without hue too."""
    snow = box(1, 1, 1.7, 1.7, fill="#ffffff")
    return [pattern("below", "#000000", snow), pattern("above", "#ffffff", box(0, 1, 4, 1.4, fill="#000000"))]


def scale_bar(x, top):
    """The scale with its numbers, an end at either side of it, of the same size in every picture."""
    end, wide, bottom = 15, 18, top + BAR_HEIGHT
    scale = Scale(COLDEST, WARMEST, bottom - end, top + end)
    out = [words(x + wide / 2, top - 6, "°C", 13, text_anchor="middle", fill=INK)]
    for degree in range(COLDEST, WARMEST):
        y = scale(degree + 1)
        marks = dict(fill=colour(degree), class_="scale", data_degree=degree, shape_rendering="crispEdges")
        out.append(box(x, y, wide, scale(degree) - y, **marks))
    for y, fill, name in ((top, ABOVE, "above"), (bottom - end, BELOW, "below")):
        out.append(box(x, y, wide, end, fill=fill, stroke=INK, stroke_width=1, class_="end"))
        out.append(words(x + wide + 6, y + (6 if name == "above" else end + 2), name, 11, fill=INK))
    for degree in range(COLDEST, WARMEST + 1, 10):
        y = scale(degree)
        out.append(line(x + wide, y, x + wide + 4, y, stroke=INK))
        out.append(words(x + wide + 6, y + 4, "%d" % degree, 11, fill=INK, class_="scale-number"))
    return out
