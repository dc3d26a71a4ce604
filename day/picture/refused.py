"""Refused steps: hatched over all panels, with the refusal's number above where there is room for it."""

from picture.frame import LEFT, RIGHT
from picture.svg import box, element, runs, text_width, words

REFUSED = "#8a1c1c"
WIDE = 10  # a narrower strip shows no slanting lines; it gets level ones


def hatches():
    """A dark line beside a white one, so that one of them shows on any colour; the colours between are left alone."""
    slanting = "M0 14L14 0M-3 3L3 -3M11 17L17 11"
    lines = element("path", d=slanting, stroke="#ffffff", stroke_width=3)
    lines += element("path", d=slanting, stroke=REFUSED, stroke_width=1.5)
    out = [element("pattern", lines, id="hatch", width=14, height=14, patternUnits="userSpaceOnUse")]
    level = box(0, 0, 8, 5, fill="#ffffff") + box(0, 1, 8, 3, fill=REFUSED)
    return out + [element("pattern", level, id="narrow", width=8, height=8, patternUnits="userSpaceOnUse")]


def marked_columns(frame):
    """Which refusals each column has, and whether all of its steps were refused."""
    return [(tuple(sorted(set(numbers) - {0})), all(numbers)) for numbers in frame.columns(frame.refused)]


def some_refused(frame):
    """Whether there is a column with both refused and accepted steps."""
    return any(numbers and not whole for numbers, whole in marked_columns(frame))


def mark(x, width, top, bottom, whole, **attributes):
    """Over all panels where all steps of a column were refused; where only some were, a small one above the tank."""
    if not whole:
        return box(x, top - 7, max(width, 1.5), 6, fill=REFUSED, class_="refused some", **attributes)
    fill = "url(#hatch)" if width >= WIDE else "url(#narrow)"
    return box(x, top, max(width, 1.5), bottom - top, fill=fill, class_="refused", **attributes)


def pointer(x, y):
    """A small triangle that points down to a strip."""
    return element("path", d="M%.1f %.1fh7l-3.5 6z" % (x - 3.5, y - 6), fill=REFUSED)


def refused_marks(frame, top, bottom):
    out, free = [], LEFT - 40.0
    for first, last, (numbers, whole) in runs(marked_columns(frame)):
        if not numbers:
            continue
        x, width = frame.span(first, last)
        told = dict(data_steps=frame.steps(first, last), data_number=" ".join(map(str, numbers)))
        out.append(mark(x, width, top, bottom, whole, **told))
        if whole:
            out.append(pointer(x + width / 2, top - 1))
        label = ", ".join(map(str, numbers))
        if text_width("refused " + label, 12) <= width + 30:
            label = "refused " + label
        room, middle = text_width(label, 12), x + width / 2
        start = min(max(middle - room / 2, free + 3), RIGHT - room)
        if start >= free + 3 and abs(start + room / 2 - middle) <= max(width, room) / 2:
            bold = dict(text_anchor="middle", fill=REFUSED, font_weight="bold")
            out.append(words(start + room / 2, top - 9, label, 12, **bold))
            free = start + room
    return out
