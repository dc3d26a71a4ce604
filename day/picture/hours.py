"""The axis below: clock times where a day is a whole number of steps, else hours."""

from picture.frame import LEFT, RIGHT, clock
from picture.svg import INK, PALE, line, nice_step, tick_words, ticks, words

HOUR_STEPS = [0.25, 0.5, 1, 2, 3, 6, 12, 24, 48, 72, 120, 168, 240, 336, 480, 720]
CLOCK_STEPS = [1 / 60, 2 / 60, 5 / 60, 10 / 60] + HOUR_STEPS
MOST_TICKS = 14


def places(frame):
    """The hours that get a tick."""
    end = frame.length * frame.count
    if not frame.clocked:
        steps = [step for step in HOUR_STEPS if step >= frame.length]
    elif end <= CLOCK_STEPS[-1] * MOST_TICKS:
        steps = [step for step in CLOCK_STEPS if step >= frame.length * (1 - 1e-9)]
    else:
        steps = [24.0 * max(1.0, nice_step(end / 24, MOST_TICKS))]
    return ticks(0.0, end, MOST_TICKS, steps)


def axis_words(frame, hours):
    """What stands at each tick, in one or two lines, and the axis's name."""
    if not frame.clocked:
        name = "hours from the begin of step 0" if frame.hours else "steps"
        return [(tick_words(hour), "") for hour in hours], name
    end = frame.length * frame.count
    midnight = [abs(hour / 24 - round(hour / 24)) < 1e-9 for hour in hours]
    days = ["day %d" % round(hour / 24) if whole else "" for hour, whole in zip(hours, midnight)]
    if all(midnight) and len(hours) > 2:
        return [(day, "") for day in days], "days; step 0 begins at 00:00 of day 0"
    # The last midnight ends its day.
    last = [whole and hour > end - 1e-6 for hour, whole in zip(hours, midnight)]
    clocks = ["24:00" if ends else clock(hour) for hour, ends in zip(hours, last)]
    if end <= 24 + 1e-6:
        return [(time, "") for time in clocks], "clock time; step 0 begins at 00:00"
    under = ["" if ends else day for day, ends in zip(days, last)]
    return list(zip(clocks, under)), "clock time; step 0 begins at 00:00 of day 0"


def axis_height(frame):
    texts, _ = axis_words(frame, places(frame))
    return 54 if any(under for _, under in texts) else 40


def hour_axis(frame, top, bottom):
    out, hours = [], places(frame)
    texts, name = axis_words(frame, hours)
    for hour, (upper, under) in zip(hours, texts):
        x = frame.x(hour)
        out.append(line(x, top, x, bottom + 5, stroke=PALE, stroke_width=1))
        for text, y in ((upper, bottom + 18), (under, bottom + 32)):
            if text:
                out.append(words(x, y, text, 12, text_anchor="middle", fill=INK, class_="hour"))
    return out + [words((LEFT + RIGHT) / 2, bottom + axis_height(frame) - 6, name, 12, text_anchor="middle", fill=INK)]
