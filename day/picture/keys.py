"""What the lines beside the keys mean: layers, set points, and circles or why there are none."""

from picture.frame import KEY
from picture.svg import GREY, HEIGHTS, INK, blend, box, line, words
from picture.temperatures import MANY_LAYERS, chosen, circle, layer_colour
from table import layer_names

ROW = 16


def text(row, top, told, **attributes):
    return words(KEY + 34, top + row * ROW + 4, told, 12, fill=INK, **attributes)


def layers_key(frame, top):
    """Which line is which layer, and where the next key begins."""
    layers = frame.day.tank.layers
    out = [words(KEY, top + 4, "layers", 12, fill=INK, font_weight="bold")]
    if layers > MANY_LAYERS:
        for index in range(32):
            out.append(box(KEY, top + 10 + index, 26, 1.4, fill=blend(HEIGHTS, 1 - index / 31)))
        out += [text(1, top, "top (L%d)" % (layers - 1)), text(2.3, top, "bottom (L0)")]
        if len(chosen(frame)) < layers:
            out.append(words(KEY, top + 3.5 * ROW + 4, "lines: top, bottom, thermostats", 11, fill=INK))
            return out, top + 4.5 * ROW
        return out, top + 3.5 * ROW
    # Two or three beside one another, the upper part of the tank at the left.
    beside, room = (3, 70) if layers > 4 else (2, 100)
    rows = -(-layers // beside)
    for index, name in enumerate(layer_names(layers)):
        x, y = KEY + index // rows * room, top + (1 + index % rows) * ROW
        out.append(line(x, y, x + 18, y, stroke=layer_colour(layers - 1 - index, layers), stroke_width=4))
        out.append(words(x + 24, y + 4, name, 12, fill=INK))
    return out, top + (rows + 1.3) * ROW


def points_key(frame, top):
    if not frame.day.heaters:
        return [], top
    out = [words(KEY, top + 4, "set points", 12, fill=INK, font_weight="bold")]
    y = top + ROW
    out.append(line(KEY, y, KEY + 26, y, stroke=GREY, stroke_width=2.2))
    out.append(words(KEY + 34, y + 4, "upper", 12, fill=INK))
    out.append(line(KEY + 100, y, KEY + 126, y, stroke=GREY, stroke_width=2.2, stroke_dasharray="7 5"))
    out.append(words(KEY + 134, y + 4, "lower", 12, fill=INK))
    return out + begins_key(frame, top + 2.2 * ROW), top + (4 if frame.begins_shown else 5) * ROW


def begins_key(frame, top):
    if frame.begins_shown:
        told = ["thermostat layer as", "a heater's turn begins"]
        return [circle(KEY + 13, top, 4.5, GREY)] + [text(row, top, piece) for row, piece in enumerate(told)]
    out = [line(KEY, top, KEY + 26, top, stroke=INK, stroke_width=5)]
    out.append(line(KEY, top, KEY + 26, top, stroke="#ffffff", stroke_width=2))
    out.append(text(0, top, "thermostat layer, bold;"))
    for row, piece in enumerate(("%d circles are left out:" % frame.begins, "too many to be told apart"), 1):
        out.append(words(KEY, top + row * ROW + 4, piece, 12, fill=INK))
    return out


def keys(frame, top):
    """The keys of the lines, and where the next ones may begin."""
    layers, after = layers_key(frame, top)
    points, after = points_key(frame, after)
    return layers + points, after
