"""The pieces of a picture: elements, scales, ticks and colours."""

import math
import sys
from xml.sax.saxutils import escape, quoteattr

FONT = "'DejaVu Sans', Verdana, Helvetica, Arial, sans-serif"
INK, GREY, PALE = "#1a1a1a", "#5f5f5f", "#d9d9d9"
# Lines and bars stand out from white at 3 to 1 at least.
# Layers from the bottom to the top.
HEIGHTS = ["#559bcd", "#3c85c2", "#1f66ad", "#0b4488", "#061b45"]
# Heaters: the first four told apart by people who do not see red or green too (after Okabe and Ito).
HEATERS = ["#cc7a00", "#008f68", "#c0398b", "#8c510a", "#6a3fb5", "#568f00", "#444444", "#9c8600"]


def place(value):
    """A coordinate, short."""
    text = "%.1f" % value
    return text[:-2] if text.endswith(".0") else text


def element(name, content=None, **attributes):
    """Underscores in attribute names stand for hyphens; a coordinate may be a number."""
    parts = [name]
    for key, value in attributes.items():
        if value is not None:
            value = place(value) if isinstance(value, float) else str(value)
            parts.append("%s=%s" % (key.strip("_").replace("_", "-"), quoteattr(value)))
    head = " ".join(parts)
    return "<%s/>" % head if content is None else "<%s>%s</%s>" % (head, content, name)


def words(x, y, text, size=15, **attributes):
    return element("text", escape(text), x=float(x), y=float(y), font_size=size, **attributes)


def box(x, y, width, height, **attributes):
    return element("rect", x=float(x), y=float(y), width=float(width), height=float(height), **attributes)


def line(x1, y1, x2, y2, **attributes):
    return element("line", x1=float(x1), y1=float(y1), x2=float(x2), y2=float(y2), **attributes)


def text_width(text, size):
    """What a text takes at most in the fonts named: a little over the widest of them."""
    return 0.64 * size * len(text)


# Scales


class Scale:
    """From values to coordinates. Halves, because the span of two doubles may be too large for one."""

    def __init__(self, low, high, start, end):
        self.low, self.high, self.start, self.end = low, high, start, end

    def __call__(self, value):
        span = self.high / 2 - self.low / 2
        return self.start + (value / 2 - self.low / 2) / span * (self.end - self.start)


def nice_step(span, most):
    """A step of 1, 2, 2.5 or 5 times a power of ten that goes at most `most` times into the span."""
    power = 10.0 ** math.floor(math.log10(span / most))
    for factor in (1, 2, 2.5, 5, 10):
        if factor * power * most >= span * (1 - 1e-9):
            return factor * power
    return 10 * power


def ticks(low, high, most, steps=None):
    """Round values from low to high. `steps` are tried first, in rising order."""
    span = high - low
    if not (0 < span < 1e300 and abs(low) + abs(high) < span * 1e9):
        return [low, high]
    step = next((s for s in steps or [] if s * most >= span * (1 - 1e-9)), None) if steps and span >= steps[0] else None
    step = step or nice_step(span, most)
    first = math.ceil(low / step - 1e-9)
    last = math.floor(high / step + 1e-9)
    return [count * step for count in range(first, last + 1)]


def widened(low, high):
    """Limits that end at round values and have some room; what is one value gets room on both sides."""
    if high - low <= abs(high) * 1e-9:
        room = max(1.0, abs(high) * 1e-3)
        low, high = low - room, high + room
    if not high - low < 1e300:
        return low, high
    step = nice_step(high - low, 6)
    bottom, top = math.floor(low / step + 1e-9) * step, math.ceil(high / step - 1e-9) * step
    return (bottom, top) if bottom < top else (low, high)


def clamped(value):
    """Kept among the doubles that are finite."""
    return min(max(value, -sys.float_info.max), sys.float_info.max)


def tick_words(value):
    return "%g" % (0.0 if abs(value) < 1e-300 else round(value, 10) if abs(value) < 1e5 else value)


# Colours


def blend(stops, part):
    """The colour at a part from 0 to 1 of a row of colours."""
    at = min(max(part, 0.0), 1.0) * (len(stops) - 1)
    index = min(int(at), len(stops) - 2)
    mixed = []
    for channel in (1, 3, 5):
        one, other = (int(stops[i][channel : channel + 2], 16) for i in (index, index + 1))
        mixed.append(round(one + (other - one) * (at - index)))
    return "#%02x%02x%02x" % tuple(mixed)


def readable_on(colour):
    """White or ink, whichever is read better on a colour."""
    red, green, blue = (int(colour[i : i + 2], 16) / 255 for i in (1, 3, 5))
    return INK if 0.3 * red + 0.59 * green + 0.11 * blue > 0.42 else "#ffffff"


def runs(values):
    """Neighbours that are equal: (first, last, value)."""
    found = []
    for index, value in enumerate(values):
        if found and found[-1][2] == value:
            found[-1][1] = index
        else:
            found.append([index, index, value])
    return found
