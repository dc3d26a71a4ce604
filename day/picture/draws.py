"""The draws: a stack for each step, with a thin line between two draws where they can be told apart."""

import math

from picture.frame import KEY, LEFT, RIGHT, axis_name, frame_box, y_ticks
from picture.svg import GREY, INK, Scale, box, clamped, element, place, ticks, widened, words

DRAWN = "#2b7bb0"
APART = 6  # a step narrower than this shows its draws as one


def wanted(frame):
    """Each step's volumes, none where they cannot be stacked."""
    volumes = [step.volumes for step in frame.day.steps[: frame.count]]
    return [some if all(v >= 0 for v in some) and math.isfinite(sum(some)) else [] for some in volumes]


def stacks(frame):
    """For each column the draws of its accepted steps and those of its refused ones."""
    out = []
    for volumes, numbers in zip(frame.columns(wanted(frame)), frame.columns(frame.refused)):
        accepted = [v for some, number in zip(volumes, numbers) if not number for v in some]
        refused = [v for some, number in zip(volumes, numbers) if number for v in some]
        out.append((accepted, refused) if math.isfinite(sum(accepted) + sum(refused)) else ([], []))
    return out


def piece(x, width, top, bottom):
    return "M%s %sh%sV%sh-%sz" % (place(x), place(bottom), place(width), place(top), place(width))


def drawn(frame, scale, columns):
    solid, hollow, between = [], [], []
    for index, (accepted, refused) in enumerate(columns):
        x, width = frame.span(index, index)
        room = max(1.0, width * 0.7)
        left, base = x + (width - room) / 2, 0.0
        for volumes, pieces in ((accepted, solid), (refused, hollow)):
            end = base + sum(volumes)
            if scale(base) - scale(end) > 0:
                pieces.append(piece(left, room, scale(end), scale(base)))
            for before, volume in zip(volumes, volumes[1:]) if width >= APART else ():
                base += before
                if min(before, volume) * (scale(0.0) - scale(1.0)) >= 3:
                    between.append("M%s %sh%s" % (place(left), place(scale(base)), place(room)))
            base = end
    out = []
    if solid:
        out.append(element("path", d="".join(solid), fill=DRAWN, class_="draw"))
    if hollow:
        shape = dict(fill="none", stroke=DRAWN, stroke_width=1.3)
        out.append(element("path", d="".join(hollow), class_="refused-draw", **shape))
    if between:
        out.append(element("path", d="".join(between), stroke="#ffffff", stroke_width=1.5, class_="apart"))
    return out


def key(frame, top):
    """What the stacks are, and where the next key may begin."""
    columns = stacks(frame)
    if not any(sum(accepted) + sum(refused) > 0 for accepted, refused in columns):
        return [], top
    name = "one draw" if frame.edges[1] - frame.edges[0] >= APART else "draws of a step"
    name = "draws of a column" if frame.share > 1 else name
    out = [box(KEY, top + 4, 12, 12, fill=DRAWN), words(KEY + 20, top + 14, name, 12, fill=INK)]
    if any(refused for _, refused in columns):
        out.append(box(KEY, top + 21, 12, 12, fill="none", stroke=DRAWN, stroke_width=1.3))
        name = "of refused steps" if frame.share > 1 else "in a refused step"
        out.append(words(KEY + 20, top + 31, name, 12, fill=INK))
    return out, top + 38


def draws(frame, top, height):
    out, columns = [frame_box(top, height), axis_name("draws, l", top, height)], stacks(frame)
    most = max(sum(accepted) + sum(refused) for accepted, refused in columns)
    if not most > 0:
        middle = (LEFT + RIGHT) / 2
        return out + [words(middle, top + height / 2 + 5, "no draws", 13, text_anchor="middle", fill=GREY)]
    low, high = widened(0.0, clamped(most * 1.05))
    scale = Scale(low, high, top + height, top)
    return y_ticks(scale, ticks(low, high, 3), "litres") + drawn(frame, scale, columns) + out
