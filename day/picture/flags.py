"""The flags: a row for each heater, a bar where its flag is on after the step, a thin line where it supplied heat."""

from picture.frame import KEY, LEFT, RIGHT
from picture.svg import GREY, HEATERS, INK, PALE, box, line, readable_on, runs, words

NONE, SOME, ALL = range(3)


def held(frame, heater):
    """The heater's flag after each step; a refused step leaves it as it was."""
    row, flag = [], False
    for step in frame.report.steps:
        flag = step.heaters[heater].flag if step.totals else flag
        row.append(flag)
    return row


def supplied(frame, heater):
    return [step.totals is not None and step.heaters[heater].supplied > 0 for step in frame.report.steps]


def kinds(frame, values):
    """For each column whether its steps have it: none, some or all of them."""
    return [ALL if all(some) else SOME if any(some) else NONE for some in frame.columns(values)]


def bar_box(x, width, top, row, kind, **attributes):
    """The whole height of a bar if all steps have it, the lower half of it if only some."""
    height = row - 7
    if kind == SOME:
        return box(x, top + 2 + height / 2, width, height / 2, **attributes)
    return box(x, top + 2, width, height, **attributes)


def clear_place(frame, first, last):
    """Where in a bar a word can stand beside the hatches of refused steps, or None. Where it can, columns are steps."""
    for begin, end, refused in runs(frame.refused[first : last + 1]) if frame.share == 1 else []:
        x, width = frame.span(first + begin, first + end)
        if not refused and width > 34:
            return x
    return None


def flag_row(frame, index, top, row):
    colour, middle = HEATERS[index % len(HEATERS)], top + row / 2 - 1
    out = [words(LEFT - 22, middle + 4, "flag h%d" % index, 12, text_anchor="end", fill=INK)]
    out.append(box(LEFT - 17, top + 2, 11, row - 7, fill=colour))
    out.append(line(LEFT, middle, RIGHT, middle, stroke=PALE, stroke_width=1.5))
    for first, last, kind in runs(kinds(frame, held(frame, index))):
        if kind:
            x, width = frame.span(first, last)
            marks = dict(class_="flag", data_heater=index, data_steps=frame.steps(first, last))
            if kind == SOME:
                marks.update(class_="flag some")
            out.append(bar_box(x, width, top, row, kind, fill=colour, **marks))
            clear = clear_place(frame, first, last) if row >= 20 else None
            if clear is not None:
                out.append(words(clear + 6, middle + 4, "on", 12, fill=readable_on(colour), font_weight="bold"))
    for first, last, kind in runs([kind > 0 for kind in kinds(frame, supplied(frame, index))]):
        if kind:
            x, width = frame.span(first, last)
            marks = dict(class_="supplied", data_heater=index, data_steps=frame.steps(first, last))
            out.append(box(x, top + row - 5, width, 3, fill=INK, **marks))
    return out


def key(frame, top):
    if not frame.day.heaters:
        return []
    shapes = [(ALL, "flag on after the step"), (None, "heat was supplied")]
    if frame.share > 1:
        shapes = [(ALL, "flag on after all steps"), (SOME, "after some of them"), (None, "some supplied heat")]
    out = []
    for index, (kind, name) in enumerate(shapes):
        y = top + 16 * index
        if kind is None:
            out.append(box(KEY, y + 6, 26, 3, fill=INK))
        else:
            out.append(bar_box(KEY, 26, y, 17, kind, fill=GREY))
        out.append(words(KEY + 34, y + 12, name, 12, fill=INK))
    return out


def flags(frame, top, row):
    out = []
    for index in range(len(frame.day.heaters)):
        out += flag_row(frame, index, top + index * row, row)
    return out
