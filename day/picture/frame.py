"""What the panels of a picture share: which steps stand in which column, where columns are, axes at the left."""

import math

from clock import steps_a_day
from picture.svg import GREY, INK, PALE, Scale, box, line, place, tick_words, words

# A laptop's screen of 1366 x 768 has some 1300 x 640 for a page.
WIDTH, HEIGHT = 1280, 624
LEFT, RIGHT = 92, 1052
KEY = RIGHT + 18  # where a panel's key stands
MOST_BEGINS = 250  # more circles than these would hide one another


def on_the_clock(length):
    """Whether steps of so many hours have clock times, as in the table; those of seconds would crowd an axis."""
    return length >= 1 / 60 and steps_a_day(length) is not None


def clock(hours):
    """The time of day, so many hours after midnight."""
    minutes = round(hours * 60) % (24 * 60)
    return "%02d:%02d" % (minutes // 60, minutes % 60)


def steps_in_a_column(count, length):
    """1 where each step has a pixel. Else as many as are needed, and some more, so that days begin with a column."""
    least = max(1, -(-count // (RIGHT - LEFT)))
    if least == 1 or not on_the_clock(length):
        return least
    daily = round(24 / length)
    # A quarter of a day at most, or whole days: half days would show day and night by turns.
    parts = [some for some in range(least, daily // 4 + 1) if daily % some == 0]
    return parts[0] if parts else -(-least // daily) * daily


class Frame:
    def __init__(self, day, report, history):
        self.day, self.report, self.history = day, report, history
        self.count = len(report.steps)
        length = day.tank.step_length
        self.hours = math.isfinite(length * self.count) and length > 1e-300
        self.clocked = self.hours and on_the_clock(length)
        self.length = length if self.hours else 1.0
        self.x = Scale(0.0, self.length * self.count, LEFT, RIGHT)
        self.share = steps_in_a_column(self.count, self.length)
        self.firsts = list(range(0, self.count, self.share))
        self.edges = [self.x(self.length * index) for index in self.firsts + [self.count]]
        self.refused = [step.number for step in report.steps]
        self.begins = self.count * len(day.heaters)
        self.begins_shown = 0 < self.begins <= MOST_BEGINS

    def span(self, first, last):
        """Where the columns from first to last begin and how wide they are."""
        return self.edges[first], self.edges[last + 1] - self.edges[first]

    def columns(self, values):
        """The values of steps, column by column."""
        return [values[first : first + self.share] for first in self.firsts]

    def steps(self, first, last):
        """The steps of the columns from first to last, as a mark says them."""
        return "%d-%d" % (self.firsts[first], min(self.firsts[last] + self.share, self.count) - 1)


def axis_name(text, top, height):
    turned = "translate(15 %s) rotate(-90)" % place(top + height / 2)
    return words(0, 0, text, 12, text_anchor="middle", fill=INK, transform=turned)


def y_ticks(scale, values, unit):
    out = []
    for value in values:
        y = scale(value)
        out.append(line(LEFT, y, RIGHT, y, stroke=PALE, stroke_width=1))
        out.append(words(LEFT - 6, y + 4, tick_words(value), 12, text_anchor="end", fill=INK, class_=unit))
    return out


def frame_box(top, height):
    return box(LEFT, top, RIGHT - LEFT, height, fill="none", stroke=GREY, stroke_width=1)
