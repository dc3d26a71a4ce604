"""Reads a picture back: what stands where, in which colour and size."""

import re

SVG = "{http://www.w3.org/2000/svg}"
COMMAND = re.compile(r"([MlHhVvz])(-?[0-9.]+)? ?(-?[0-9.]+)?")


def of_class(root, name):
    """The parts of a class, whatever other classes they have too."""
    return [part for part in root.iter() if name in part.get("class", "").split()]


def texts(root):
    return [part.text for part in root.iter(SVG + "text")]


def steps_in(part):
    first, last = map(int, part.get("data-steps").split("-"))
    return set(range(first, last + 1))


def numbers(part, *names):
    return [float(part.get(name)) for name in names]


def path_places(path):
    """Every place that a path of straight lines goes to."""
    x = y = 0.0
    for command, one, other in COMMAND.findall(path):
        if command == "M":
            x, y = float(one), float(other)
        elif command == "l":
            x, y = x + float(one), y + float(other)
        elif command in "Hh":
            x = float(one) + (x if command == "h" else 0)
        elif command in "Vv":
            y = float(one) + (y if command == "v" else 0)
        yield x, y


def places(root):
    """Every place that something is drawn at, patterns apart: they are further down."""
    for part in root:
        if part.tag == SVG + "rect":
            x, y, width, height = numbers(part, "x", "y", "width", "height")
            yield from ((x, y), (x + width, y + height))
        elif part.tag == SVG + "line":
            x1, y1, x2, y2 = numbers(part, "x1", "y1", "x2", "y2")
            yield from ((x1, y1), (x2, y2))
        elif part.tag == SVG + "circle":
            x, y, r = numbers(part, "cx", "cy", "r")
            yield from ((x - r, y - r), (x + r, y + r))
        elif part.tag == SVG + "polyline":
            yield from (tuple(map(float, point.split(","))) for point in part.get("points").split())
        elif part.tag == SVG + "path":
            wide = float(part.get("stroke-width", "0")) / 2
            for x, y in path_places(part.get("d")):
                yield from ((x, y - wide), (x, y + wide))


def word_boxes(root):
    """About where each text lies: left, top, right, bottom."""
    boxes = []
    for part in root.iter(SVG + "text"):
        size = float(part.get("font-size"))
        width = 0.6 * size * len(part.text) * (1.1 if part.get("font-weight") else 1)
        x, y = float(part.get("x")), float(part.get("y"))
        left = x - {"start": 0, "middle": width / 2, "end": width}[part.get("text-anchor", "start")]
        box = (left, y - 0.75 * size, left + width, y + 0.2 * size)
        turned = re.fullmatch(r"translate\((\S+) (\S+)\) rotate\(-90\)", part.get("transform", ""))
        if turned:
            x, y = map(float, turned.groups())
            box = (x - 0.75 * size, y - width / 2, x + 0.2 * size, y + width / 2)
        boxes.append((box, part.text))
    return boxes


def cells(root):
    """The bands piece by piece: where they are, from left to right, and their colours."""
    out = []
    for part in of_class(root, "band"):
        for piece in part.get("d").split("M")[1:]:
            (left, middle), (right, _) = path_places("M" + piece)
            out.append((left, right, middle, part.get("stroke")))
    return out


def colour_scale(root):
    """What each degree looks like, by the boxes of the scale; the numbers beside it say which box is which degree."""
    marks = sorted((float(part.get("y")) - 4, float(part.text)) for part in of_class(root, "scale-number"))
    (high_y, high), (low_y, low) = marks[0], marks[-1]
    out = {}
    for part in of_class(root, "scale"):
        y, height = numbers(part, "y", "height")
        out[int(low + (y + height / 2 - low_y) * (high - low) / (high_y - low_y))] = part.get("fill")
    return out


def shared(root, count):
    """How many steps stand in a column, by the picture's own words."""
    told = [re.search(r"Each column holds (\d+) steps", part.text) for part in of_class(root, "shared")]
    share = int(told[0].group(1)) if told else 1
    return [range(first, min(first + share, count)) for first in range(0, count, share)]


def brightness(colour):
    """Relative luminance."""
    parts = [int(colour[i : i + 2], 16) / 255 for i in (1, 3, 5)]
    parts = [part / 12.92 if part <= 0.03928 else ((part + 0.055) / 1.055) ** 2.4 for part in parts]
    return 0.2126 * parts[0] + 0.7152 * parts[1] + 0.0722 * parts[2]


def contrast(colour):
    return 1.05 / (brightness(colour) + 0.05)
