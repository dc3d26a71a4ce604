"""The panels put together: the tank, its temperatures, the draws and the flags over one axis of hours."""

import textwrap
from collections import namedtuple
from xml.sax.saxutils import escape

from picture import draws, flags
from picture.bands import bands, key_top
from picture.colours import WARMEST, ends
from picture.frame import HEIGHT, LEFT, WIDTH, Frame
from picture.hours import axis_height, hour_axis
from picture.keys import keys
from picture.refused import REFUSED, hatches, refused_marks, some_refused
from picture.svg import FONT, GREY, INK, Scale, box, element, widened, words
from picture.temperatures import limits, temperatures
from refusals import words_for_all
from table import ended_words, tank_words

# Where panels begin and how high they are; `layer` and `flag` are the heights of a layer's and of a flag's row.
Places = namedtuple("Places", "tank layer lines lines_height draws draws_height flags flag bottom foot foot_row")


def heading(frame, title):
    steps = "%d step%s" % (frame.count, "s" if frame.count != 1 else "")
    subtitle = "%s, %s. Layers and flags are as each step left them." % (tank_words(frame.day.tank), steps)
    fitting = textwrap.shorten(title, 84, placeholder=" ...")
    out = [words(LEFT, 26, fitting, 19, fill=INK, font_weight="bold"), words(LEFT, 45, subtitle, 13, fill=GREY)]
    if frame.share > 1:
        width = "%d steps" % frame.share + (" (%g h)" % (frame.share * frame.length) if frame.hours else "")
        hot = any(max(step.layers) > WARMEST for step in frame.report.steps)
        shown = "bands show a layer's coldest%s, " % (" (or above %d)" % WARMEST if hot else "")
        shown += "lines its coldest and its warmest"
        shown += "; a mark above the tank: some were refused" if some_refused(frame) else ""
        out.append(words(LEFT, 62, "Each column holds %s: %s." % (width, shown), 12, fill=INK, class_="shared"))
    return out


def foot_lines(frame):
    """The refusals met, in words, and why steps are missing, if so."""
    texts = []
    for number in sorted(set(frame.refused) - {0}):
        steps = [step for drawn, step in zip(frame.refused, frame.day.steps) if drawn == number]
        texts.append("refused %d: %s" % (number, words_for_all(number, steps)))
    texts.append(ended_words(frame.day, frame.report))
    return [piece for text in texts for piece in textwrap.wrap(text, 155, break_on_hyphens=False)]


def places(frame, foot):
    """All panels within the height of the picture: the lines get what the others leave."""
    heaters, layers = len(frame.day.heaters), frame.day.tank.layers
    foot_row = 15 if len(foot) <= 3 else 13
    foot_top = HEIGHT - 6 - foot_row * len(foot)
    bottom = foot_top - axis_height(frame)
    flag = max(15, min(26, 92 // heaters)) if heaters else 0
    flags_top = bottom - flag * heaters
    draws_height = 56 if heaters <= 4 else 48
    draws_top = flags_top - 8 - draws_height
    tank = 86 if frame.share > 1 else 70
    room = draws_top - 16 - 14 - tank
    layer = max(2, int(min(150, 0.38 * room) / layers))
    lines = tank + layer * layers + 14
    high = draws_top - 16 - lines
    return Places(tank, layer, lines, high, draws_top, draws_height, flags_top, flag, bottom, foot_top, foot_row)


def all_keys(frame, at):
    """Each beside its panel, or further down where the one above it is long."""
    lines, after = keys(frame, key_top(at.tank + at.layer * frame.day.tank.layers) + 22)
    stacks, after = draws.key(frame, max(at.draws, after))
    return lines + stacks + flags.key(frame, max(at.flags, after))


def picture(day, report, history, title):
    """The text of the SVG file."""
    frame = Frame(day, report, history)
    foot = foot_lines(frame)
    at = places(frame, foot)
    scale = Scale(*widened(*limits(frame)), at.lines + at.lines_height, at.lines)

    parts = heading(frame, title) + hour_axis(frame, at.tank, at.bottom)
    parts += bands(frame, at.tank, at.layer)
    parts += temperatures(frame, at.lines, at.lines_height, scale)
    parts += draws.draws(frame, at.draws, at.draws_height)
    parts += flags.flags(frame, at.flags, at.flag)
    parts += refused_marks(frame, at.tank, at.bottom) + all_keys(frame, at)
    for row, line in enumerate(foot):
        size = 12 if at.foot_row == 15 else 11
        parts.append(words(LEFT, at.foot + 11 + at.foot_row * row, line, size, fill=REFUSED))

    patterns = element("defs", "".join(ends() + hatches()))
    lines = [element("title", escape(title)), patterns, box(0, 0, WIDTH, HEIGHT, fill="#ffffff")] + parts
    # In a window that is smaller still, a browser makes it smaller.
    size = dict(viewBox="0 0 %d %d" % (WIDTH, HEIGHT), width=WIDTH, height=HEIGHT, font_family=FONT)
    size.update(style="max-width:100%;max-height:100vh")
    return element("svg", "\n%s\n" % "\n".join(lines), xmlns="http://www.w3.org/2000/svg", **size) + "\n"
